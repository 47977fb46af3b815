//! Tree bitmaps damaged at random, and bitmaps of any numbers.

use crate::harm::pick;
use reference::bitmap::{Bitmap, Supernodes};
use reference::random::Random;

/// A row that has children, where there is one, else any.
fn parent(rows: &Supernodes, random: &mut Random) -> usize {
    let last = rows.shortest() as u64 - 1;
    (0..8)
        .map(|_| random.within(0, last) as usize)
        .find(|i| rows.external[*i] > 0)
        .unwrap_or(random.within(0, last) as usize)
}

fn harm_record(record: &mut Bitmap, rows: &Supernodes, random: &mut Random) {
    let (n, m) = (rows.shortest() as u64, rows.hop_row.len() as u64);
    match random.within(0, 9) {
        0 => record.supernodes = record.supernodes.wrapping_add(random.within(1, 3) as u32),
        1 => record.supernodes = random.within(0, n + 1) as u32,
        2 => record.supernodes = record.supernodes.wrapping_sub(1),
        3 => record.supernodes = pick(random, &[0, 1, u32::MAX]),
        4 => record.hops = record.hops.wrapping_add(random.within(1, 3) as u32),
        5 => record.hops = random.within(0, m + 1) as u32,
        6 => record.hops = record.hops.wrapping_sub(1),
        7 => record.hops = pick(random, &[0, 1, u32::MAX]),
        8 => record.width = pick(random, &[0, 1, 31, 32, 33, 64, 256, u32::MAX]),
        _ => record.width = random.within(1, 32) as u32,
    }
}

fn harm_numbers(rows: &mut Supernodes, random: &mut Random) {
    let (n, m) = (rows.shortest() as u32, rows.hop_row.len() as u32);
    let row = parent(rows, random);
    let near = u32::MAX - random.within(0, 16) as u32;
    match random.within(0, 5) {
        0 => rows.first_child[row] = pick(random, &[n - 1, n, n.wrapping_sub(2), near]),
        1 => rows.first_child[row] = random.within(0, row as u64) as u32,
        2 => rows.first_child[row] = random.within(0, u64::from(n)) as u32,
        3 => rows.first_hop[row] = pick(random, &[m, m.wrapping_sub(1), m.wrapping_sub(2), near]),
        4 => rows.first_hop[row] = random.within(0, u64::from(m)) as u32,
        _ => rows.first_hop[0] = m,
    }
}

fn harm_maps(rows: &mut Supernodes, random: &mut Random) {
    let row = random.within(0, rows.shortest() as u64 - 1) as usize;
    let bit = 1u16 << random.within(0, 15);
    match random.within(0, 5) {
        0 => rows.internal[row] ^= bit,
        1 => rows.internal[row] |= 1 << 15,
        2 => rows.internal[row] = random.next() as u16,
        3 => rows.external[row] ^= bit,
        4 => rows.external[row] = random.next() as u16,
        _ => rows.external[row] = u16::MAX,
    }
}

fn harm_lists(rows: &mut Supernodes, random: &mut Random) {
    let n = random.within(0, rows.shortest() as u64) as usize;
    match random.within(0, 6) {
        0 => rows.internal.truncate(n),
        1 => rows.external.truncate(n),
        2 => rows.first_child.truncate(n),
        3 => rows.first_hop.truncate(n),
        4 => rows.hop_row.truncate(random.within(0, rows.hop_row.len() as u64) as usize),
        5 => rows.hop_row.fill(0),
        _ => rows.hop_row.iter_mut().for_each(|hop| *hop = pick(random, &[0, *hop, *hop, u16::MAX])),
    }
}

/// One to three things changed.
pub fn harm(record: &mut Bitmap, rows: &mut Supernodes, random: &mut Random) {
    for _ in 0..random.within(1, 3) {
        if rows.shortest() == 0 {
            harm_record(record, rows, random);
            continue;
        }
        match random.within(0, 7) {
            0..=1 => harm_record(record, rows, random),
            2..=3 => harm_numbers(rows, random),
            4..=6 => harm_maps(rows, random),
            _ => harm_lists(rows, random),
        }
    }
}

/// A bitmap of any numbers, small enough that children are there.
pub fn noise(random: &mut Random) -> (Bitmap, Supernodes) {
    let (n, m) = (random.within(0, 24), random.within(0, 40));
    let mut rows = Supernodes::default();
    for _ in 0..n {
        rows.internal.push(if random.one_in(3) { 0 } else { random.next() as u16 });
        rows.external.push(if random.one_in(4) { 0 } else { random.next() as u16 });
        rows.first_child.push(random.within(0, n) as u32);
        rows.first_hop.push(random.within(0, m) as u32);
    }
    rows.hop_row.extend((0..m).map(|_| if random.one_in(4) { 0 } else { random.next() as u16 }));
    let record = Bitmap {
        width: random.within(1, 16) as u32,
        supernodes: if random.one_in(8) { random.within(0, n + 1) } else { n } as u32,
        hops: if random.one_in(8) { random.within(0, m + 1) } else { m } as u32,
    };
    (record, rows)
}
