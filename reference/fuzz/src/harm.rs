//! Records and rows damaged at random, and records and rows of any numbers.

use reference::build::{Elements, Record};
use reference::choices::LEVELS;
use reference::random::Random;

pub fn pick<T: Copy>(random: &mut Random, from: &[T]) -> T {
    from[random.within(0, from.len() as u64 - 1) as usize]
}

/// A row that has a link, where there is one, else any.
fn linked(rows: &Elements, random: &mut Random) -> usize {
    let last = rows.shortest() as u64 - 1;
    (0..8)
        .map(|_| random.within(0, last) as usize)
        .find(|i| rows.link[*i] > 0)
        .unwrap_or(random.within(0, last) as usize)
}

fn harm_record(record: &mut Record, rows: &Elements, random: &mut Random) {
    let n = rows.shortest() as u64;
    match random.within(0, 9) {
        0 => record.elements = record.elements.wrapping_add(random.within(1, 3) as u32),
        1 => record.elements = random.within(0, n + 1) as u32,
        2 => record.elements = record.elements.wrapping_sub(1),
        3 => record.elements = random.next() as u32,
        4 => record.strides[0] = 0,
        5 => record.strides[0] = pick(random, &[1, 2, 31, 32, 33, 63, 64, 65, 128, 255]),
        6 => record.levels = pick(random, &[0, 1, 2, 3, 8, 9, 31, 32, 33, 256, u32::MAX]),
        7 => record.width = pick(random, &[0, 1, 31, 32, 33, 64, 256, u32::MAX]),
        8 => record.width = random.within(1, 32) as u32,
        _ => record.floor = pick(random, &[0, 1, 65535]),
    }
}

fn harm_rows(rows: &mut Elements, random: &mut Random) {
    let n = rows.shortest() as u64;
    let row = linked(rows, random);
    match random.within(0, 13) {
        0 => rows.hop.truncate(random.within(0, n) as usize),
        1 => rows.link.truncate(random.within(0, n) as usize),
        2 => rows.stride.truncate(random.within(0, n) as usize),
        3 => rows.stride[row] = pick(random, &[0, 1, 2, 32, 33, 64, 128, 255]),
        4 => rows.stride[row] = random.within(0, 12) as u8,
        5 => rows.link[row] = pick(random, &[n as u32 - 1, n as u32, n as u32 + 1, u32::MAX, u32::MAX - 255]),
        6 => rows.link[row] = random.within(0, row as u64) as u32,
        7 => {
            rows.link[row] = random.within(1, n) as u32;
            rows.stride[row] = random.within(1, 3) as u8;
        }
        8 => rows.hop[row] = pick(random, &[0, 1, 65535]),
        9 => rows.length.truncate(random.within(0, n) as usize),
        10 => rows.length[row] = pick(random, &[0, 1, 32, 33, 128, 255]),
        11 => rows.length.iter_mut().for_each(|length| *length = pick(random, &[0, *length, 33, 255])),
        12 => rows.hop.iter_mut().for_each(|hop| *hop = pick(random, &[0, *hop, *hop])),
        _ => rows.link[row] = random.next() as u32,
    }
}

/// One to three things changed.
pub fn harm(record: &mut Record, rows: &mut Elements, random: &mut Random) {
    for _ in 0..random.within(1, 3) {
        if rows.shortest() == 0 || random.one_in(3) {
            harm_record(record, rows, random);
        } else {
            harm_rows(rows, random);
        }
    }
}

/// A record and rows of any numbers, small enough that links lead somewhere: short paths, or paths of many blocks.
pub fn noise(random: &mut Random) -> (Record, Elements) {
    if random.one_in(4) {
        return long_paths(random);
    }
    let n = random.within(0, 40);
    let mut rows = Elements::default();
    for _ in 0..n {
        rows.hop.push(if random.one_in(2) { 0 } else { random.next() as u16 });
        rows.length.push(if random.one_in(4) { 0 } else { random.next() as u8 });
        rows.link.push(if random.one_in(2) { 0 } else { random.within(0, n + 1) as u32 });
        rows.stride.push(if random.one_in(16) { random.next() as u8 } else { random.within(0, 3) as u8 });
    }
    let record = Record {
        width: random.within(1, 12) as u32,
        levels: random.within(1, 8) as u32,
        elements: if random.one_in(8) { random.within(0, n + 1) } else { n } as u32,
        floor: random.within(0, 3) as u16,
        strides: [random.within(0, 4) as u8; LEVELS],
    };
    (record, rows)
}

/// Nearly every row has a link, and nearly every stride is 1, so that some paths have as many blocks as the width has bits.
fn long_paths(random: &mut Random) -> (Record, Elements) {
    let n = random.within(2, 40);
    let mut rows = Elements::default();
    for _ in 0..n {
        rows.hop.push(if random.one_in(2) { 0 } else { random.next() as u16 });
        rows.length.push(if random.one_in(4) { 0 } else { random.next() as u8 });
        rows.link.push(if random.one_in(16) { 0 } else { random.within(1, n - 1) as u32 });
        rows.stride.push(if random.one_in(32) { random.within(0, 3) as u8 } else { 1 });
    }
    let width = random.within(8, 32) as u32;
    let levels = if random.one_in(2) { random.within(8, LEVELS as u64) } else { u64::from(width) } as u32;
    (Record { width, levels, elements: n as u32, floor: random.within(0, 3) as u16, strides: [1; LEVELS] }, rows)
}
