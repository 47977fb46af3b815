//! Tables to be tried: random, nested, dense and chained ones, some of them damaged.

use crate::harm::pick;
use reference::random::{cut, Random};
use reference::table::{fewest_links, Table, ENTRIES, LINKS};

/// Entries of a small table.
const SMALL: u64 = 12;
/// Every so many tables one has more entries than a table may have; every so many of those have just as many as it may, and take
/// the reference a second or two.
const TOO_LONG: u64 = 1 << 12;
const LONGEST: u64 = 32;

/// Small widths more often than large ones: there prefixes meet, and all addresses can be asked.
pub fn width(random: &mut Random) -> u32 {
    match random.within(0, 31) {
        0..=17 => random.within(1, 6) as u32,
        18..=29 => random.within(7, 10) as u32,
        30 => random.within(11, 31) as u32,
        _ => 32,
    }
}

fn of(width: u32, mut prefixes: Vec<(u32, u8)>, random: &mut Random) -> Table {
    prefixes.sort();
    prefixes.dedup();
    Table {
        width,
        links: LINKS,
        hop: prefixes.iter().map(|_| random.hop()).collect(),
        value: prefixes.iter().map(|p| p.0).collect(),
        length: prefixes.iter().map(|p| p.1).collect(),
    }
}

/// Prefixes of one address, each nested in the one before; often all of its bits are one of them.
fn chain(width: u32, n: usize, random: &mut Random) -> Table {
    let address = random.next();
    let mut lengths: Vec<u32> = (0..n).map(|_| random.within(0, width as u64) as u32).collect();
    if n > 0 && random.one_in(2) {
        lengths[0] = width;
    }
    let prefixes = lengths.iter().map(|l| (cut(width, address, *l), *l as u8)).collect();
    of(width, prefixes, random)
}

/// Neighbours of one length or two.
fn dense(width: u32, n: usize, random: &mut Random) -> Table {
    let length = random.within(1, width as u64) as u32;
    let first = random.next();
    let step = 1u64 << (width - length);
    let prefixes = (0..n as u64)
        .map(|i| {
            let length = if random.one_in(3) { length - 1 } else { length };
            (cut(width, first.wrapping_add(i * step), length), length as u8)
        })
        .collect();
    of(width, prefixes, random)
}

fn sound(random: &mut Random) -> Table {
    let width = width(random);
    let n = random.within(0, SMALL) as usize;
    match random.within(0, 5) {
        0 => chain(width, n, random),
        1 => dense(width, n, random),
        _ => random.table(width, n),
    }
}

/// One thing made wrong, at any entry.
fn damage(table: &mut Table, random: &mut Random) {
    let n = table.value.len().min(table.length.len()).min(table.hop.len());
    if n == 0 {
        table.width = [0, 33, 64, 263, u32::MAX][random.within(0, 4) as usize];
        return;
    }
    let i = random.within(0, n as u64 - 1) as usize;
    let j = random.within(0, n as u64 - 1) as usize;
    match random.within(0, 12) {
        0 => table.width = [0, 33, 64, 263, u32::MAX][random.within(0, 4) as usize],
        1 => table.width = random.within(1, 32) as u32,
        2 => table.hop[i] = 0,
        3 => table.length[i] = random.within(0, 255) as u8,
        4 => table.value[i] ^= 1 << random.within(0, 31),
        5 => table.value[i] = random.next() as u32,
        6 => table.value.swap(i, j),
        7 => {
            table.value.swap(i, j);
            table.length.swap(i, j);
        }
        8 => (table.value[i], table.length[i]) = (table.value[j], table.length[j]),
        9 => drop(table.value.pop()),
        10 => drop(table.length.pop()),
        11 => drop(table.hop.pop()),
        _ => match random.within(0, 2) {
            0 => table.value.push(random.next() as u32),
            1 => table.length.push(random.next() as u8),
            _ => table.hop.push(random.next() as u16),
        },
    }
}

/// Neighbours of 17 bits, all of them good entries: as many as a table may have, or one more.
fn long(n: usize, random: &mut Random) -> Table {
    let width = random.within(17, 32) as u32;
    let value = (0..n as u32).map(|i| i << (width - 17)).collect();
    Table { width, links: LINKS, value, length: vec![17; n], hop: (0..n).map(|_| random.hop()).collect() }
}

/// A number of links for entries or rules with these hops (02, [7]): one in four is less than some hop, so that its link is not
/// there; most of the others are enough.
pub fn links(hops: &[u16], random: &mut Random) -> u16 {
    let enough = fewest_links(hops);
    match random.within(0, 15) {
        0..=3 => random.too_few_links(hops),
        4 | 5 => enough,
        6 => enough.saturating_add(1),
        7 | 8 => random.within(enough.into(), LINKS.into()) as u16,
        9 => pick(random, &[0, 1, 65533, 65534]),
        _ => LINKS,
    }
}

/// A table of any kind, with any number of links.
pub fn any(random: &mut Random) -> Table {
    let mut table = any_entries(random);
    table.links = links(&table.hop, random);
    table
}

fn any_entries(random: &mut Random) -> Table {
    if random.one_in(TOO_LONG) {
        let n = if random.one_in(LONGEST) { ENTRIES } else { ENTRIES + 1 };
        return long(n, random);
    }
    let mut table = sound(random);
    if random.one_in(5) {
        damage(&mut table, random);
        if random.one_in(3) {
            damage(&mut table, random);
        }
    }
    table
}

/// A prefix to ask about: an entry, one near an entry, or any; some malformed.
pub fn prefix(table: &Table, random: &mut Random) -> (u32, u8) {
    let width = table.width.clamp(1, 32);
    let n = table.value.len().min(table.length.len());
    let mut prefix = random.prefix(width, 0, width);
    if n > 0 && !random.one_in(4) {
        let i = random.within(0, n as u64 - 1) as usize;
        prefix = (table.value[i], table.length[i]);
        if prefix.1 as u32 <= width && random.one_in(2) {
            prefix = random.relative(width, prefix);
        }
    }
    if random.one_in(8) {
        match random.within(0, 2) {
            0 => prefix.1 = random.next() as u8,
            1 => prefix.0 ^= 1 << random.within(0, 31),
            _ => prefix.0 = random.next() as u32,
        }
    }
    prefix
}
