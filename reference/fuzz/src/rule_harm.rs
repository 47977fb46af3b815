//! What a build of rules left, damaged at random, and records, rows and lists of tries of any numbers.

use crate::harm::{self, pick};
use reference::build::{Elements, Record};
use reference::choices::LEVELS;
use reference::random::Random;
use reference::rules::{RuleRecord, TRIE_ROW};

/// A record, its rows and its list of tries.
#[derive(Clone, Debug)]
pub struct Arrays {
    pub record: RuleRecord,
    pub rows: Elements,
    pub list: Vec<u32>,
}

fn harm_record(arrays: &mut Arrays, random: &mut Random) {
    let (n, tries) = (arrays.rows.shortest() as u32, (arrays.list.len() / TRIE_ROW) as u16);
    let RuleRecord { dest, elements } = &mut arrays.record;
    match random.within(0, 8) {
        0 => *elements = pick(random, &[n, n + 1, n.wrapping_sub(1), 0, u32::MAX]),
        1 => *elements = random.within(0, n as u64) as u32,
        2 => dest.elements = elements.wrapping_add(pick(random, &[0, 1, 2])),
        3 => dest.elements = random.within(0, *elements as u64) as u32,
        4 => dest.strides[0] = pick(random, &[0, 1, 2, 31, 32, 33, 64, 255]),
        5 => dest.levels = pick(random, &[0, 1, 2, 3, 8, 31, 32, 33, 256, u32::MAX]),
        6 => dest.width = pick(random, &[0, 1, 31, 32, 33, 64, 256, u32::MAX]),
        7 => dest.floor = pick(random, &[0, 1, tries, tries.wrapping_add(1), 1024, 65535]),
        _ => (dest.elements, dest.strides[0], dest.floor) = (0, 0, random.within(0, u64::from(tries) + 1) as u16),
    }
}

/// Hops of destinations, which are numbers of tries.
fn harm_numbers(arrays: &mut Arrays, random: &mut Random) {
    let tries = (arrays.list.len() / TRIE_ROW) as u16;
    let own = (arrays.record.dest.elements as usize).min(arrays.rows.hop.len());
    let number = pick(random, &[0, 1, tries, tries.wrapping_add(1), 1024, 65535]);
    match random.within(0, 2) {
        0 => arrays.rows.hop[..own].fill(number),
        1 => arrays.rows.hop[own..].fill(pick(random, &[0, 1, 65535])),
        _ => arrays.rows.hop.iter_mut().take(own).for_each(|hop| *hop = pick(random, &[*hop, number])),
    }
}

fn harm_list(arrays: &mut Arrays, random: &mut Random) {
    let tries = arrays.list.len() / TRIE_ROW;
    let (e, width) = (arrays.record.elements, arrays.record.dest.width);
    if tries == 0 || random.one_in(12) {
        arrays.list.truncate(random.within(0, arrays.list.len() as u64) as usize);
        return;
    }
    let trie = random.within(0, tries as u64 - 1) as usize;
    let row = &mut arrays.list[trie * TRIE_ROW..(trie + 1) * TRIE_ROW];
    let (own, last) = (trie as u32 + 1, tries as u32);
    match random.within(0, 8) {
        0 => row[0] = pick(random, &[0, 1, 65535, 65536, 65536 + 7, 131071, u32::MAX]),
        1 => row[1] = pick(random, &[0, 1, width, width.wrapping_add(1), 255, 256, 257, 65539, u32::MAX]),
        2 => {
            row[2] = pick(random, &[0, row[2].wrapping_add(1), e.wrapping_sub(row[3]), e, e.wrapping_add(1), u32::MAX])
        }
        3 => row[3] = pick(random, &[0, row[3].wrapping_add(1), row[3].wrapping_sub(1), e, u32::MAX]),
        4 => (row[1], row[2], row[3]) = (0, pick(random, &[0, e, e.wrapping_add(1), u32::MAX]), 0),
        5 => row[4] = pick(random, &[0, 1, own, last, last + 1, 1024, 65535, 65536, 65537, u32::MAX]),
        6 => row[4] = random.within(1, u64::from(last)) as u32,
        7 => row[random.within(0, 4) as usize] = random.next() as u32,
        _ => arrays.list.chunks_exact_mut(TRIE_ROW).for_each(|row| row[4] = own),
    }
}

/// One to three things changed. Damage of elements is that of 01's rows; a record of elements is the destinations'.
pub fn harm(arrays: &mut Arrays, random: &mut Random) {
    for _ in 0..random.within(1, 3) {
        match random.within(0, 7) {
            0..=1 => harm_record(arrays, random),
            2..=3 => harm::harm(&mut arrays.record.dest, &mut arrays.rows, random),
            4 => harm_numbers(arrays, random),
            _ => harm_list(arrays, random),
        }
    }
}

/// A row of the list of tries, most of whose numbers are within n rows and so many tries.
fn any_trie(random: &mut Random, n: u64, tries: u64) -> [u32; TRIE_ROW] {
    let floor = if random.one_in(2) { 0 } else { random.next() as u32 };
    let elements = if random.one_in(3) { 0 } else { random.within(0, n) };
    let past = random.one_in(8) as u64;
    let place = random.within(0, n - elements + past);
    let root = if elements == 0 && !random.one_in(8) { 0 } else { random.within(0, 2) };
    let next = if random.one_in(16) { tries + 1 } else { random.within(0, tries) };
    [floor, root as u32, place as u32, elements as u32, next as u32]
}

/// About as many source tries as may be visited, each leading to the one behind it; the last has a floor, or leads anywhere. Each reads
/// one row, or none.
fn line(random: &mut Random) -> Arrays {
    let tries = random.within(30, 37) as u32;
    let (floor, last) = pick(random, &[(0, 0), (5, 0), (65535, 1), (65536, 0), (0, 1), (0, tries), (0, tries + 1)]);
    let rows = Elements { hop: vec![0; 2], length: vec![0; 2], link: vec![0; 2], stride: vec![0; 2] };
    let trie = |number: u32| {
        let read = random.within(0, 1) as u32;
        let (floor, next) = if number == tries { (floor, last) } else { (0, number + 1) };
        [floor, read, 0, 2 * read, next]
    };
    let list = (1..=tries).flat_map(trie).collect();
    let first = random.within(1, 3) as u16;
    let dest = Record { width: 4, levels: 1, elements: 0, floor: first, strides: [0; LEVELS] };
    Arrays { record: RuleRecord { dest, elements: 2 }, rows, list }
}

/// Arrays of any numbers, small enough that numbers lead somewhere.
pub fn noise(random: &mut Random) -> Arrays {
    if random.one_in(8) {
        return line(random);
    }
    let (n, tries) = (random.within(0, 40), random.within(0, 8));
    let mut rows = Elements::default();
    for _ in 0..n {
        rows.hop.push(if random.one_in(4) { random.next() as u16 } else { random.within(0, tries) as u16 });
        rows.length.push(random.next() as u8);
        rows.link.push(if random.one_in(3) { random.within(0, n + 1) as u32 } else { 0 });
        rows.stride.push(if random.one_in(16) { random.next() as u8 } else { random.within(0, 3) as u8 });
    }
    let list = (0..tries).flat_map(|_| any_trie(random, n, tries)).collect();
    let empty = n == 0 || random.one_in(8);
    let dest = Record {
        width: random.within(1, 12) as u32,
        levels: random.within(1, 8) as u32,
        elements: if empty { 0 } else { random.within(n / 2, n) } as u32,
        floor: random.within(0, tries + 1) as u16,
        strides: [if empty { 0 } else { random.within(1, 3) } as u8; LEVELS],
    };
    let elements = if random.one_in(8) { random.within(0, n + 1) } else { n } as u32;
    Arrays { record: RuleRecord { dest, elements }, rows, list }
}
