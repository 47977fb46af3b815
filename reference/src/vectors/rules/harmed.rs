//! Damaged records, rows and lists of tries: what a good build left with one or two things changed, chains of tries that no build
//! makes, and any numbers.

use super::{build_rules, figure, look, needed, print, record, row, sweep, visit, Left};
use crate::build::{Elements, Record};
use crate::choices::{Kind, LEVELS};
use crate::random::Random;
use crate::rules::{RuleRecord, Rules, TRIE_ROW};
use crate::vectors::choosers::KINDS;
use crate::vectors::Vectors;

/// What an accepted build of good rules leaves in lists just long enough.
fn sound(rules: &Rules, kind: Kind, levels: u32) -> Left {
    let need = needed(kind, levels, rules);
    let n = need.rows[0];
    let mut rows = Elements { hop: vec![0; n], length: vec![0; n], link: vec![0; n], stride: vec![0; n] };
    let mut list = vec![0; need.list];
    let (outcome, record) = build_rules(kind, levels, rules, &mut vec![0; need.words], &mut rows, &mut list);
    assert!(outcome.is_ok());
    Left { record, rows, list }
}

type Change = (&'static str, fn(&mut Left));

/// Things to be changed in what the seven rules leave at W = 4 with two variable levels: the destinations at rows 0 to 7, their
/// link at row 0; the sources of 0 at rows 8 to 15, of 000 at 16 to 19, of 0001 at 20 to 25, their links at rows 11, 17 and 20. The
/// list of tries is 0 2 8 8 0, 0 1 16 4 1, 0 1 20 6 2.
const RECORD: &[Change] = &[
    ("nothing", |_| ()),
    ("one more in all tries", |left| left.record.elements = 27),
    ("most in all tries", |left| left.record.elements = u32::MAX),
    ("a hop less", |left| left.rows.hop.truncate(25)),
    ("a length less", |left| left.rows.length.truncate(25)),
    ("a link less", |left| left.rows.link.truncate(25)),
    ("a stride less", |left| left.rows.stride.truncate(25)),
    ("one less in all tries", |left| left.record.elements = 25),
    ("the destinations alone", |left| left.record.elements = 8),
    ("nothing in all tries", |left| left.record.elements = 0),
    ("destinations past the end", |left| left.record.dest.elements = 27),
    ("most destinations", |left| left.record.dest.elements = u32::MAX),
    ("destinations to the end", |left| left.record.dest.elements = 26),
    ("one destination row less", |left| left.record.dest.elements = 7),
    ("one block of destinations", |left| left.record.dest.elements = 4),
    ("no destination row, a root", |left| left.record.dest.elements = 0),
    ("root stride 0", |left| left.record.dest.strides[0] = 0),
    ("root stride 1", |left| left.record.dest.strides[0] = 1),
    ("root stride 3", |left| left.record.dest.strides[0] = 3),
    ("root stride 5", |left| left.record.dest.strides[0] = 5),
    ("root stride 255", |left| left.record.dest.strides[0] = 255),
    ("floor 1", |left| left.record.dest.floor = 1),
    ("floor 3", |left| left.record.dest.floor = 3),
    ("floor 4", |left| left.record.dest.floor = 4),
    ("floor 1024", |left| left.record.dest.floor = 1024),
    ("floor 65535", |left| left.record.dest.floor = 65535),
    ("no destinations", |left| empty(left, 0)),
    ("no destinations, floor 1", |left| empty(left, 1)),
    ("no destinations, floor 2", |left| empty(left, 2)),
    ("no destinations, floor 65535", |left| empty(left, 65535)),
    ("W = 0", |left| left.record.dest.width = 0),
    ("W = 1", |left| left.record.dest.width = 1),
    ("W = 3", |left| left.record.dest.width = 3),
    ("W = 5", |left| left.record.dest.width = 5),
    ("W = 32", |left| left.record.dest.width = 32),
    ("W = 33", |left| left.record.dest.width = 33),
    ("W = 2^32 - 1", |left| left.record.dest.width = u32::MAX),
    ("k = 0", |left| left.record.dest.levels = 0),
    ("k = 1", |left| left.record.dest.levels = 1),
    ("k = 3", |left| left.record.dest.levels = 3),
    ("k = 33", |left| left.record.dest.levels = 33),
    ("k = 2^32 - 1", |left| left.record.dest.levels = u32::MAX),
];

const ROWS: &[Change] = &[
    ("destination: stride 0", |left| left.rows.stride[0] = 0),
    ("destination: stride 3", |left| left.rows.stride[0] = 3),
    ("destination: stride 255", |left| left.rows.stride[0] = 255),
    ("destination: a link one further", |left| left.rows.link[0] = 5),
    ("destination: a link past its E", |left| left.rows.link[0] = 8),
    ("destination: a link that would wrap", |left| left.rows.link[0] = u32::MAX),
    ("destination: a third block", |left| (left.rows.link[5], left.rows.stride[5]) = (4, 1)),
    ("destination: no link", |left| left.rows.link[0] = 0),
    ("destination: number 0", |left| left.rows.hop[5] = 0),
    ("destination: number 1", |left| left.rows.hop[5] = 1),
    ("destination: number 4", |left| left.rows.hop[5] = 4),
    ("destination: number 1024", |left| left.rows.hop[5] = 1024),
    ("destination: number 65535", |left| left.rows.hop[5] = 65535),
    ("all numbers 65535", |left| left.rows.hop[..8].fill(65535)),
    ("source: stride 0", |left| left.rows.stride[20] = 0),
    ("source: stride 4", |left| left.rows.stride[20] = 4),
    ("source: stride 255", |left| left.rows.stride[20] = 255),
    ("source: a link one further", |left| left.rows.link[20] = 3),
    ("source: a link past its E", |left| left.rows.link[20] = 6),
    ("source: a link that would wrap", |left| left.rows.link[20] = u32::MAX),
    ("source: a third block", |left| left.rows.link[22..26].fill(2)),
    ("source: a third block of the last", |left| (left.rows.link[12], left.rows.stride[12]) = (4, 1)),
    ("source: a link to itself", |left| (left.rows.link[21], left.rows.stride[21]) = (1, 1)),
    ("source: action 65535", |left| left.rows.hop[22] = 65535),
    ("source: actions 0", |left| left.rows.hop[8..].fill(0)),
    ("source: actions 65535", |left| left.rows.hop[8..].fill(65535)),
    ("source: lengths 255", |left| left.rows.length[8..].fill(255)),
];

const LISTS: &[Change] = &[
    ("floor 7", |left| left.list[10] = 7),
    ("floor 65535", |left| left.list[10] = 65535),
    ("floor 65536", |left| left.list[10] = 65536),
    ("floor 65543", |left| left.list[10] = 65536 + 7),
    ("floor 131071", |left| left.list[5] = 131071),
    ("floor 2^32 - 1", |left| left.list[0] = u32::MAX),
    ("root 0", |left| left.list[11] = 0),
    ("root 2", |left| left.list[11] = 2),
    ("root 4", |left| left.list[11] = 4),
    ("root 5", |left| left.list[11] = 5),
    ("root 255", |left| left.list[11] = 255),
    ("root 256", |left| left.list[11] = 256),
    ("root 257", |left| left.list[11] = 257),
    ("root 65539", |left| left.list[6] = 65536 + 3),
    ("root 2^31 + 1", |left| left.list[11] = (1 << 31) + 1),
    ("root 2^32 - 1", |left| left.list[11] = u32::MAX),
    ("place 0", |left| left.list[12] = 0),
    ("place 19", |left| left.list[12] = 19),
    ("place 21", |left| left.list[12] = 21),
    ("place 26", |left| left.list[12] = 26),
    ("place 65556", |left| left.list[12] = 65536 + 20),
    ("place 2^32 - 1", |left| left.list[12] = u32::MAX),
    ("place 2^32 - 6, which with E would wrap", |left| left.list[12] = u32::MAX - 5),
    ("E 0", |left| left.list[13] = 0),
    ("E 2", |left| left.list[13] = 2),
    ("E 5", |left| left.list[13] = 5),
    ("E 7", |left| left.list[13] = 7),
    ("E 65542", |left| left.list[13] = 65536 + 6),
    ("E 2^32 - 1", |left| left.list[13] = u32::MAX),
    ("E 2^32 - 20, which with place would wrap", |left| left.list[13] = u32::MAX - 19),
    ("empty inside", |left| left.list[11..14].copy_from_slice(&[0, 20, 0])),
    ("empty at the end", |left| left.list[11..14].copy_from_slice(&[0, 26, 0])),
    ("empty past the end", |left| left.list[11..14].copy_from_slice(&[0, 27, 0])),
    ("empty far past the end", |left| left.list[11..14].copy_from_slice(&[0, u32::MAX, 0])),
    ("empty past the end with a floor", |left| left.list[10..14].copy_from_slice(&[7, 0, 27, 0])),
    ("empty with a root", |left| left.list[11..14].copy_from_slice(&[256, 26, 0])),
    ("next 0", |left| left.list[14] = 0),
    ("next 1", |left| left.list[14] = 1),
    ("next itself", |left| left.list[14] = 3),
    ("next 4", |left| left.list[14] = 4),
    ("next 1024", |left| left.list[14] = 1024),
    ("next 65535", |left| left.list[14] = 65535),
    ("next 65536", |left| left.list[14] = 65536),
    ("next 65537", |left| left.list[14] = 65536 + 1),
    ("next 65538", |left| left.list[14] = 65536 + 2),
    ("next 2^31 + 2", |left| left.list[14] = (1 << 31) + 2),
    ("the last leads to 65536", |left| left.list[4] = 65536),
    ("next 2^32 - 1", |left| left.list[14] = u32::MAX),
    ("the last leads to the first", |left| left.list[4] = 3),
    ("the last leads to itself", |left| left.list[4] = 1),
    ("the last leads past the list", |left| left.list[4] = 4),
    ("a number less", |left| left.list.truncate(14)),
    ("a row less", |left| left.list.truncate(10)),
    ("a row and four numbers", |left| left.list.truncate(9)),
    ("no list", |left| left.list.clear()),
    ("a row more", |left| left.list.extend([4, 0, 26, 0, 0])),
];

/// The empty trie of destinations, with a floor.
fn empty(left: &mut Left, floor: u16) {
    (left.record.dest.elements, left.record.dest.strides[0], left.record.dest.floor) = (0, 0, floor);
}

/// Each change alone, and with another some places on.
pub fn examples(vectors: &mut Vectors) {
    let good = sound(&figure(4), Kind::Variable, 2);
    assert!(good.list == [0, 2, 8, 8, 0, 0, 1, 16, 4, 1, 0, 1, 20, 6, 2] && good.rows.hop.len() == 26);
    let changes: Vec<&Change> = RECORD.iter().chain(ROWS).chain(LISTS).collect();
    for (i, (what, change)) in changes.iter().enumerate() {
        let mut left = good.clone();
        change(&mut left);
        let same = (left.record, &left.rows, &left.list) == (good.record, &good.rows, &good.list);
        assert!(same == (i == 0), "{what} changes nothing");
        record(vectors, &mut left, i as u8, i % 3);
        sweep(vectors, &left, 9, 17);
        look(vectors, &left, 16, 0);
        // A list that is cut off has no row for another change.
        if left.rows.shortest() == 26 && left.list.len() >= 15 {
            changes[(i + 29) % changes.len()].1(&mut left);
            record(vectors, &mut left, 0, 0);
            sweep(vectors, &left, 4, 17);
        }
    }
}

/// So many tries, each leading to the one behind it and the last to `last`; each reads `reads` rows of one bit, and the last has a
/// floor.
fn line(tries: u32, last: u32, reads: bool, floor: u32) -> Left {
    let (rows, root) = if reads { (2, 1) } else { (0, 0) };
    let rows_of = Elements { hop: vec![0; rows], length: vec![0; rows], link: vec![0; rows], stride: vec![0; rows] };
    let mut list = vec![];
    for number in 1..=tries {
        let (floor, next) = if number == tries { (floor, last) } else { (0, number + 1) };
        list.extend([floor, root, 0, rows as u32, next]);
    }
    let dest = Record { width: 4, levels: 1, elements: 0, floor: 1, strides: [0; LEVELS] };
    Left { record: RuleRecord { dest, elements: rows as u32 }, rows: rows_of, list }
}

/// Chains about the 33rd trie: one that leads to itself, two that lead to each other, and lists of 32 to 35.
pub fn chains(vectors: &mut Vectors) {
    for (tries, last) in [(1, 1), (2, 1), (3, 1), (3, 2), (3, 3), (32, 0), (32, 1), (33, 0), (33, 1), (33, 33)] {
        for (reads, floor) in [(false, 0), (true, 0), (false, 65536), (true, 5), (true, 65535)] {
            let mut left = line(tries, last, reads, floor);
            record(vectors, &mut left, 0, 0);
            sweep(vectors, &left, 2, 2);
        }
    }
    for (tries, last) in [(33, 34), (33, 35), (34, 0), (34, 1), (35, 0), (35, 35)] {
        for (reads, floor) in [(true, 0), (false, 5), (true, 65535)] {
            let mut left = line(tries, last, reads, floor);
            record(vectors, &mut left, 0, 0);
            sweep(vectors, &left, 2, 2);
            // The second trie begins the visits: there is one less.
            left.record.dest.floor = 2;
            record(vectors, &mut left, 0, 0);
            look(vectors, &left, 15, 15);
        }
    }
}

/// One thing changed in a record, its rows or its list of tries, none of which is empty.
fn harm(random: &mut Random, left: &mut Left, kind: u64) {
    match kind {
        0..=8 => harm_record(random, left, kind),
        9..=17 => harm_rows(random, left, kind),
        _ => harm_list(random, left, kind),
    }
}

const HARMS: u64 = 27;

fn harm_record(random: &mut Random, left: &mut Left, kind: u64) {
    let (n, tries) = (left.rows.shortest() as u32, (left.list.len() / TRIE_ROW) as u16);
    let Left { record: RuleRecord { dest, elements }, rows, list } = left;
    match kind {
        0 => *elements = random.of(&[n + 1, n + 2, n - 1, n / 2, 0, u32::MAX]),
        1 => match random.within(0, 4) {
            0 => drop(rows.hop.pop()),
            1 => drop(rows.length.pop()),
            2 => drop(rows.link.pop()),
            3 => drop(rows.stride.pop()),
            _ => drop(list.pop()),
        },
        2 => dest.elements = random.of(&[n, n + 1, u32::MAX]),
        3 => dest.elements = random.within(0, dest.elements as u64) as u32,
        4 => dest.strides[0] = random.of(&[0, 1, 2, 3, 4, 5, 32, 33, 255]),
        5 => dest.floor = random.of(&[0, 1, tries, tries + 1, 1024, 65535]),
        6 => dest.levels = random.of(&[0, 1, 1, 2, 2, 33, u32::MAX]),
        7 => dest.width = random.of(&[0, 1, 2, 3, 5, 33, 256, u32::MAX]),
        _ => empty(left, tries),
    }
}

fn harm_rows(random: &mut Random, left: &mut Left, kind: u64) {
    let (n, tries) = (left.rows.shortest(), (left.list.len() / TRIE_ROW) as u16);
    let own = left.record.dest.elements.clamp(1, n as u32) as usize;
    let rows = &mut left.rows;
    // One of the destinations' rows in turn, else one of the others, where it can be one with a link.
    let (low, high) = if kind % 2 == 0 || own == n { (0, own - 1) } else { (own, n - 1) };
    let any = random.within(low as u64, high as u64) as usize;
    let linked: Vec<usize> = (low..=high).filter(|&i| rows.link[i] > 0).collect();
    let at = if linked.is_empty() { any } else { random.of(&linked) };
    match kind {
        9 | 10 => (rows.link[at], rows.stride[at]) = (rows.link[at].max(1), random.of(&[0, 0, 3, 4, 5, 255])),
        11 | 12 => rows.link[at] = random.of(&[1, n as u32, n as u32 - 1, u32::MAX]),
        13 | 14 => (rows.link[any], rows.stride[any]) = (random.within(1, 6) as u32, 1),
        15 => rows.hop[any] = random.of(&[0, 1, 65535]),
        16 => rows.hop[any] = random.of(&[0, 1, tries, tries + 1, 1024, 65535]),
        _ => rows.hop[own..].fill(random.of(&[0, 65535])),
    }
}

fn harm_list(random: &mut Random, left: &mut Left, kind: u64) {
    let (e, width, tries) = (left.record.elements, left.record.dest.width, (left.list.len() / TRIE_ROW) as u32);
    let trie = random.within(0, tries as u64 - 1) as usize;
    let row = &mut left.list[trie * TRIE_ROW..(trie + 1) * TRIE_ROW];
    match kind {
        18 => row[0] = random.of(&[0, 1, 65535, 65536, 65536 + 7, 131071, u32::MAX]),
        19 => row[1] = random.of(&[0, 1, width, width.wrapping_add(1), 255, 256, 257, 65536 + 3, u32::MAX]),
        20 => row[2] = random.of(&[0, row[2] + 1, row[2].max(1) - 1, e, e.wrapping_add(1), u32::MAX]),
        21 => row[3] = random.of(&[0, row[3] + 1, row[3].max(1) - 1, e, u32::MAX]),
        22 => (row[1], row[2], row[3]) = (0, random.of(&[0, e, e.wrapping_add(1), u32::MAX]), 0),
        23 => row[4] = random.of(&[0, 1, trie as u32 + 1, tries, tries + 1, 1024, 65535, 65536, 65537, u32::MAX]),
        24 => row[4] = trie as u32 + 1,
        25 => row[4] = random.within(1, tries as u64) as u32,
        _ => left.list.truncate(random.within(0, left.list.len() as u64) as usize),
    }
}

/// What a build of random rules left, with one thing changed or two, and most of all pairs of addresses.
pub fn harmed(vectors: &mut Vectors, random: &mut Random) {
    for turn in 0..297 {
        let width = random.within(2, 4) as u32;
        let n = random.within(3, 8) as usize;
        let made = random.rules(width, n);
        let good = sound(&made, KINDS[turn as usize % 2], random.within(1, 3) as u32);
        if good.rows.shortest() == 0 {
            continue;
        }
        let mut left = good.clone();
        harm(random, &mut left, turn % HARMS);
        let whole = left.rows.shortest() == good.rows.shortest() && left.list.len() >= TRIE_ROW;
        if whole && random.one_in(3) {
            harm(random, &mut left, (turn * 7 + 5) % HARMS);
        }
        let (others, more) = (random.next() as u8, random.within(0, 2) as usize);
        record(vectors, &mut left, others, more);
        if random.one_in(8) {
            print(vectors, &left);
        }
        let end = 1u32 << width;
        sweep(vectors, &left, end, end);
        let (dest, source) = random.of(&[(end, 0), (0, end), (end - 1, end - 1), (u32::MAX, 0)]);
        look(vectors, &left, dest, source);
        count_paths(vectors, &left, &good, end);
    }
}

/// Counts arrays in which an accepted classification passes by a changed row, of the elements or of the list.
fn count_paths(vectors: &mut Vectors, left: &Left, good: &Left, end: u32) {
    let accepted = |pair: u32| {
        let (dest, source) = (pair / end, pair % end);
        super::answer(left, dest, source).ok()?;
        visit(&left.record, &left.rows, &left.list, dest, source).ok()
    };
    let visits: Vec<_> = (0..end * end).filter_map(accepted).collect();
    let rows: Vec<usize> = (0..left.rows.shortest()).filter(|&i| row(&left.rows, i) != row(&good.rows, i)).collect();
    if visits.iter().any(|v| rows.iter().any(|row| !v.rows.contains(row))) {
        vectors.hit("damaged row off the paths");
    }
    let pairs = left.list.chunks_exact(TRIE_ROW).zip(good.list.chunks_exact(TRIE_ROW));
    let tries: Vec<usize> = pairs.enumerate().filter(|(_, (a, b))| a != b).map(|(i, _)| i).collect();
    if visits.iter().any(|v| tries.iter().any(|trie| !v.tries.contains(trie))) {
        vectors.hit("damaged row of the list off the path");
    }
}

/// A row of the list of tries of any numbers, most of them within n rows and so many tries.
fn any_trie(random: &mut Random, n: u64, tries: u64) -> [u32; TRIE_ROW] {
    let floor = if random.one_in(2) { 0 } else { random.next() as u32 };
    let elements = if random.one_in(4) { 0 } else { random.within(1, n) };
    let past = random.one_in(8) as u64;
    let place = random.within(0, n - elements + past);
    let root = if elements == 0 && !random.one_in(8) { 0 } else { random.within(0, 2) };
    let next = if random.one_in(16) { tries + 1 } else { random.within(0, tries) };
    [floor, root as u32, place as u32, elements as u32, next as u32]
}

/// Records, rows and lists of any numbers.
pub fn noise(vectors: &mut Vectors, random: &mut Random) {
    for _ in 0..180 {
        let (n, tries) = (random.within(2, 24), random.within(0, 6));
        let mut rows = Elements::default();
        for _ in 0..n {
            rows.hop.push(if random.one_in(3) { random.next() as u16 } else { random.within(0, tries) as u16 });
            rows.length.push(random.next() as u8);
            rows.link.push(if random.one_in(3) { random.within(0, n) as u32 } else { 0 });
            rows.stride.push(random.within(0, 2) as u8);
        }
        let list: Vec<u32> = (0..tries).flat_map(|_| any_trie(random, n, tries)).collect();
        let dest = Record {
            width: random.within(1, 4) as u32,
            levels: random.within(1, 4) as u32,
            elements: random.within(n / 2, n) as u32,
            floor: random.within(0, tries + 1) as u16,
            strides: [random.within(1, 2) as u8; LEVELS],
        };
        let elements = if random.one_in(8) { random.within(0, n + 1) } else { n } as u32;
        let mut left = Left { record: RuleRecord { dest, elements }, rows, list };
        record(vectors, &mut left, random.next() as u8, random.within(0, 1) as usize);
        sweep(vectors, &left, 1 << dest.width, 1 << dest.width);
    }
}
