//! Damaged records and rows: what a good build left with one or two things changed, and any numbers.

use super::{build, eight, look, needed, print, row, sweep, walk, Left};
use crate::bitmap::{Bitmap, Supernodes};
use crate::random::Random;
use crate::table::Table;
use crate::vectors::Vectors;

/// A record and lists of its own. The line gives rows for the longest list, and some hops more than the list has.
fn record(vectors: &mut Vectors, left: &Left, more: usize) {
    let Left { record: Bitmap { width, supernodes, hops }, rows } = left;
    let lengths = [rows.internal.len(), rows.external.len(), rows.first_child.len(), rows.first_hop.len()];
    let [a, b, c, d] = lengths;
    let (n, e) = (lengths.into_iter().max().unwrap_or(0), rows.hop_row.len());
    let given: String = (0..n).map(|i| row(rows, i)).collect();
    let listed: String = (0..e + more).map(|i| format!(" {}", rows.hop_row.get(i).unwrap_or(&77))).collect();
    vectors.case(
        format!(
            "record width {width} supernodes {supernodes} hops {hops} lists {a} {b} {c} {d} {e} rows {n}:{given} hops {}:{listed}",
            e + more
        ),
        "record".to_string(),
    );
}

/// What an accepted build of a good table leaves in lists just long enough.
fn sound(table: &Table) -> Left {
    let need = needed(table);
    let n = need.rows[0];
    let mut rows = Supernodes {
        internal: vec![0; n],
        external: vec![0; n],
        first_child: vec![0; n],
        first_hop: vec![0; n],
        hop_row: vec![0; need.hops],
    };
    let (outcome, record) = build(table, &mut vec![0; need.words], &mut rows);
    assert!(outcome.is_ok());
    Left { record, rows }
}

type Change = (&'static str, fn(&mut Left));

/// Things to be changed in what the eight-prefix table's build leaves: rows 4166/4352/1/0, 4/0/0/4, 137/0/0/5.
const CHANGES: &[Change] = &[
    ("supernodes above the internal maps", |left| left.rows.internal.truncate(2)),
    ("supernodes above the external maps", |left| left.rows.external.truncate(2)),
    ("supernodes above the first children", |left| left.rows.first_child.truncate(2)),
    ("supernodes above the first hops", |left| left.rows.first_hop.truncate(2)),
    ("hops above the hop rows", |left| left.rows.hop_row.truncate(7)),
    ("one supernode more", |left| left.record.supernodes += 1),
    ("most supernodes", |left| left.record.supernodes = u32::MAX),
    ("one hop more", |left| left.record.hops += 1),
    ("most hops", |left| left.record.hops = u32::MAX),
    ("one supernode less", |left| left.record.supernodes -= 1),
    ("the root alone", |left| left.record.supernodes = 1),
    ("no supernode", |left| left.record.supernodes = 0),
    ("one hop less", |left| left.record.hops -= 1),
    ("five hops", |left| left.record.hops = 5),
    ("no hop", |left| left.record.hops = 0),
    ("a child one further", |left| left.rows.first_child[0] = 2),
    ("a child past the count", |left| left.rows.first_child[0] = 3),
    ("a child that would wrap", |left| left.rows.first_child[0] = u32::MAX),
    ("children that are the root", |left| left.rows.first_child[0] = 0),
    ("children of a leaf", |left| left.rows.external[2] = 0xffff),
    ("no children", |left| left.rows.external[0] = 0),
    ("every child", |left| left.rows.external[0] = 0xffff),
    ("a hop one further", |left| left.rows.first_hop[2] = 6),
    ("a hop past the count", |left| left.rows.first_hop[2] = 8),
    ("a hop that would wrap", |left| left.rows.first_hop[2] = u32::MAX),
    ("the root's hops past the count", |left| left.rows.first_hop[0] = 9),
    ("bit 15 of the root", |left| left.rows.internal[0] |= 1 << 15),
    ("bit 15 of a leaf alone", |left| left.rows.internal[2] = 1 << 15),
    ("every bit of the root", |left| left.rows.internal[0] = 0xffff),
    ("every bit of a leaf", |left| left.rows.internal[2] = 0xffff),
    ("no bit", |left| left.rows.internal.fill(0)),
    ("hop 0 wins", |left| left.rows.hop_row[6] = 0),
    ("hop 65535", |left| left.rows.hop_row[7] = 65535),
    ("all hops 0", |left| left.rows.hop_row.fill(0)),
    ("W = 8", |left| left.record.width = 8),
    ("W = 6", |left| left.record.width = 6),
    ("W = 5", |left| left.record.width = 5),
    ("W = 4: a supernode at level W", |left| left.record.width = 4),
    ("W = 3: a supernode above level W", |left| left.record.width = 3),
    ("W = 0", |left| left.record.width = 0),
    ("W = 33", |left| left.record.width = 33),
    ("W = 2^32 - 1", |left| left.record.width = u32::MAX),
];

fn asked(vectors: &mut Vectors, left: &Left) {
    record(vectors, left, 0);
    print(vectors, left);
    sweep(vectors, left, 129);
}

/// Each change alone.
fn alone(vectors: &mut Vectors, good: &Left) {
    asked(vectors, good);
    for (what, change) in CHANGES {
        let mut left = good.clone();
        change(&mut left);
        assert!((left.record, &left.rows) != (good.record, &good.rows), "{what} changes nothing");
        asked(vectors, &left);
    }
}

/// Each change with another, some places on.
fn together(vectors: &mut Vectors, good: &Left) {
    for step in [7, 16] {
        for i in 0..CHANGES.len() {
            let mut left = good.clone();
            CHANGES[i].1(&mut left);
            let (what, change) = CHANGES[(i + step) % CHANGES.len()];
            // A list that one of the two cuts off has no row for the other to change.
            if left.rows.shortest() == 3 && left.rows.hop_row.len() == 8 && !what.contains("above the") {
                change(&mut left);
                record(vectors, &left, 2);
                sweep(vectors, &left, 129);
            }
        }
    }
}

/// Numbers near 2^32 are past the count: they do not begin again at 0.
fn near_the_end(vectors: &mut Vectors, good: &Left) {
    for first in [u32::MAX, u32::MAX - 1, u32::MAX - 14, u32::MAX - 15, u32::MAX - 16] {
        let mut left = good.clone();
        left.rows.external[0] = 0xffff;
        left.rows.first_child[0] = first;
        asked(vectors, &left);
        left = good.clone();
        left.rows.internal[0] = 0x7fff;
        left.rows.first_hop[0] = first;
        asked(vectors, &left);
    }
}

/// A supernode that is its own child at branch 0: it is visited again for each 4 bits that are 0.
fn chains(vectors: &mut Vectors) {
    for width in [1, 2, 3, 4, 5, 8, 9, 11, 12, 16, 31, 32] {
        let rows = Supernodes {
            internal: vec![1],
            external: vec![1],
            first_child: vec![0],
            first_hop: vec![0],
            hop_row: vec![5],
        };
        let left = Left { record: Bitmap { width, supernodes: 1, hops: 1 }, rows };
        record(vectors, &left, 0);
        for address in [0, 1, 15, 16, 255, 256] {
            look(vectors, &left, address);
        }
    }
}

pub fn examples(vectors: &mut Vectors) {
    let good = sound(&eight());
    alone(vectors, &good);
    together(vectors, &good);
    near_the_end(vectors, &good);
    chains(vectors);
}

/// One thing changed in a record or its rows, none of which is empty.
fn harm(random: &mut Random, left: &mut Left, kind: u64) {
    let Left { record, rows } = left;
    let (n, m) = (rows.shortest() as u64, rows.hop_row.len() as u64);
    let at = random.within(0, n - 1) as usize;
    let parents: Vec<usize> = (0..n as usize).filter(|&i| rows.external[i] > 0).collect();
    let parent = if parents.is_empty() { at } else { parents[random.within(0, parents.len() as u64 - 1) as usize] };
    let hop = random.within(0, m - 1) as usize;
    let mut pick = |from: &[u64]| from[random.within(0, from.len() as u64 - 1) as usize];
    match kind {
        0 => record.supernodes += pick(&[1, 2, 3]) as u32,
        1 => match pick(&[0, 1, 2, 3]) {
            0 => drop(rows.internal.pop()),
            1 => drop(rows.external.pop()),
            2 => drop(rows.first_child.pop()),
            _ => drop(rows.first_hop.pop()),
        },
        2 => drop(rows.hop_row.pop()),
        3 => record.hops += pick(&[1, 2, 3]) as u32,
        4 => record.supernodes = pick(&[0, 1, n / 2, n - 1]) as u32,
        5 => record.hops = pick(&[0, 1, m / 2, m - 1]) as u32,
        6 => rows.first_child[parent] = pick(&[n - 1, n, n + 1, 4294967295, 4294967280]) as u32,
        7 => rows.first_child[parent] = random.within(0, parent as u64) as u32,
        8 => rows.external[at] |= 1 << random.within(0, 15),
        9 => rows.external[at] = random.next() as u16,
        10 => rows.internal[at] |= 1 << 15,
        11 => rows.internal[at] = random.next() as u16,
        12 => rows.internal[at] ^= 1 << random.within(0, 15),
        13 => rows.first_hop[at] = pick(&[m - 1, m, m + 1, 4294967295, 4294967281]) as u32,
        14 => rows.first_hop[at] = random.within(0, m) as u32,
        15 => rows.hop_row[hop] = pick(&[0, 1, 65535]) as u16,
        16 => rows.hop_row.fill(0),
        17 => record.width = pick(&[0, 33, 256, 4294967295]) as u32,
        18 => record.width = record.width.saturating_sub(pick(&[1, 2, 3, 4]) as u32).max(1),
        19 => record.width += pick(&[1, 2, 3, 4]) as u32,
        20 => {
            // The root's hops lie past the count, those of its children do not.
            rows.first_hop[0] = m as u32;
            rows.internal[0] |= 1;
        }
        _ => rows.external.fill(0xffff),
    }
}

const KINDS: u64 = 22;

pub fn harmed(vectors: &mut Vectors, random: &mut Random) {
    for turn in 0..616 {
        let width = random.within(2, 9) as u32;
        let n = random.within(2, 12) as usize;
        let made = random.table(width, n);
        let good = sound(&made);
        let mut left = good.clone();
        harm(random, &mut left, turn % KINDS);
        if random.one_in(3) && left.rows.shortest() > 0 && !left.rows.hop_row.is_empty() {
            harm(random, &mut left, random_kind(turn));
        }
        record(vectors, &left, random.within(0, 2) as usize);
        if random.one_in(4) {
            print(vectors, &left);
        }
        let below = 1u32 << width.min(7);
        sweep(vectors, &left, below);
        for address in [(1 << width) - 1, 1 << width, 4294967295] {
            look(vectors, &left, address);
        }
        count_paths(vectors, &left, &good, below);
    }
}

/// Another kind of harm than the turn's own.
fn random_kind(turn: u64) -> u64 {
    (turn * 7 + 5) % KINDS
}

/// Counts records in which an accepted walk goes to a child that does not lie further on, or passes by a changed row.
fn count_paths(vectors: &mut Vectors, left: &Left, good: &Left, below: u32) {
    let Left { record, rows } = left;
    let asked = |address: &u32| (1..=32).contains(&record.width) && (*address as u64) < 1 << record.width;
    let paths: Vec<Vec<usize>> =
        (0..below).filter(asked).filter_map(|a| walk(record, rows, a).ok()).map(|path| path.visited).collect();
    if paths.iter().any(|path| path.windows(2).any(|w| w[1] <= w[0])) {
        vectors.hit("child backwards followed");
    }
    let changed: Vec<usize> = (0..rows.shortest()).filter(|&i| row(rows, i) != row(&good.rows, i)).collect();
    if paths.iter().any(|path| changed.iter().any(|i| !path.contains(i))) {
        vectors.hit("damaged row off the path");
    }
}

/// Rows and records of any numbers.
pub fn noise(vectors: &mut Vectors, random: &mut Random) {
    for _ in 0..220 {
        let n = random.within(1, 12);
        let m = random.within(1, 24);
        let mut rows = Supernodes::default();
        for _ in 0..n {
            rows.internal.push(if random.one_in(3) { 0 } else { random.next() as u16 });
            rows.external.push(if random.one_in(3) { 0 } else { random.next() as u16 & random.next() as u16 });
            rows.first_child.push(random.within(0, n) as u32);
            rows.first_hop.push(random.within(0, m) as u32);
        }
        rows.hop_row.extend((0..m).map(|_| if random.one_in(4) { 0 } else { random.next() as u16 }));
        let width = random.within(1, 10) as u32;
        let supernodes = if random.one_in(8) { random.within(0, n) } else { n } as u32;
        let hops = if random.one_in(8) { random.within(0, m) } else { m } as u32;
        let left = Left { record: Bitmap { width, supernodes, hops }, rows };
        record(vectors, &left, random.within(0, 1) as usize);
        sweep(vectors, &left, 1 << width.min(6));
        for _ in 0..4 {
            look(vectors, &left, random.within(0, (1 << width) - 1) as u32);
        }
    }
}
