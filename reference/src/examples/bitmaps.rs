//! The tree bitmap: the rows of 01's eight-prefix table, answers against longest match, supernodes by a queue, and each clause of
//! refusal 9.

use super::{eight, number, table, MATCHES};
use crate::bitmap::{build, lookup, nodes, walk, Bitmap, Damage, Supernodes, NODE_ROW, STRIDE};
use crate::lookup::Found;
use crate::random::Random;
use crate::table::{bits, Refusal, Table};
use std::collections::VecDeque;

fn room(rows: usize, hops: usize) -> Supernodes {
    Supernodes {
        internal: vec![9; rows],
        external: vec![9; rows],
        first_child: vec![9; rows],
        first_hop: vec![9; rows],
        hop_row: vec![9; hops],
    }
}

/// The table's tree bitmap, in lists just long enough.
fn built(table: &Table) -> (Bitmap, Supernodes) {
    let nodes = nodes(table);
    let mut lists = room(nodes.iter().filter(|node| node.len() % STRIDE == 0).count(), table.value.len());
    let (outcome, record) = build(table, &mut vec![7; nodes.len() * NODE_ROW], &mut lists);
    assert_eq!(outcome, Ok(()));
    (record, lists)
}

fn found(hop: u16, length: u8, reads: u32) -> Result<Found, Refusal> {
    Ok(Found::of(hop, length, reads))
}

#[test]
fn eight_prefixes() {
    assert_eq!(nodes(&eight()).len(), 14);
    let (record, rows) = built(&eight());
    assert_eq!(record, Bitmap { width: 7, supernodes: 3, hops: 8 });
    assert_eq!(rows.internal, [4166, 4, 137]);
    assert_eq!(rows.external, [4352, 0, 0]);
    assert_eq!(rows.first_child, [1, 0, 0]);
    assert_eq!(rows.first_hop, [0, 4, 5]);
    assert_eq!(rows.hop_row, [1, 2, 3, 4, 5, 6, 7, 8]);
    for (address, hop, length) in MATCHES {
        let found = lookup(&record, &rows, number(address)).unwrap();
        assert_eq!((found.hop(), found.length()), (hop, length));
    }
    assert_eq!(lookup(&record, &rows, number("1100001")), found(7, 6, 2));
    assert_eq!(lookup(&record, &rows, 0), found(1, 1, 1));
    assert_eq!(lookup(&record, &rows, 128), Err(Refusal { number: 8, detail: 0 }));
}

#[test]
fn rooms_just_too_small() {
    let outcome = |words: usize, rows, hops| {
        let (mut scratch, mut lists) = (vec![7; words], room(rows, hops));
        let (outcome, record) = build(&eight(), &mut scratch, &mut lists);
        assert!(outcome.is_ok() || (record, &lists) == (Bitmap::default(), &room(rows, hops)));
        assert!(scratch.iter().all(|x| *x == if words < 56 { 7 } else { 0 }));
        (outcome.map_err(|refusal| (refusal.number, refusal.detail)), lists)
    };
    assert_eq!(outcome(55, 3, 8).0, Err((6, 14)));
    assert_eq!(outcome(56, 2, 7).0, Err((7, 3)));
    assert_eq!(outcome(56, 3, 7).0, Err((7, 8)));
    let (accepted, lists) = outcome(61, 5, 9);
    assert_eq!(accepted, Ok(()));
    assert_eq!(
        (&lists.internal[3..], &lists.first_hop[3..], &lists.hop_row[8..]),
        (&[9; 2][..], &[9; 2][..], &[9][..])
    );
}

#[test]
fn tables_of_little() {
    let (record, rows) = built(&table(7, &[]));
    assert_eq!((record, &rows), (Bitmap { width: 7, supernodes: 0, hops: 0 }, &Supernodes::default()));
    assert_eq!(lookup(&record, &rows, 5), found(0, 0, 0));
    let (record, rows) = built(&table(7, &[("", 9)]));
    assert_eq!((record.supernodes, rows.internal[0], rows.external[0]), (1, 1, 0));
    assert_eq!(lookup(&record, &rows, 5), found(9, 0, 1));
}

/// 02's example of a discard ([4]): its hop stands among the others.
#[test]
fn discarded_corner() {
    let (record, rows) = built(&table(4, &[("10", 1), ("1010", 65535)]));
    assert_eq!(
        (&rows.internal[..], &rows.external[..], &rows.hop_row[..]),
        (&[32, 1][..], &[1024, 0][..], &[1, 65535][..])
    );
    assert_eq!(lookup(&record, &rows, number("1010")), Ok(Found::Discard { length: 4, reads: 2 }));
    assert_eq!(lookup(&record, &rows, number("1011")), Ok(Found::Match { hop: 1, length: 2, reads: 1 }));
}

/// Supernodes by a queue, each behind all those before it, as source document 002 draws them.
fn by_a_queue(table: &Table) -> Vec<String> {
    let nodes = nodes(table);
    let mut queue = VecDeque::from_iter(nodes.get("").cloned());
    let mut order = vec![];
    while let Some(node) = queue.pop_front() {
        for branch in 0..1 << STRIDE {
            queue.extend(nodes.get(&format!("{node}{branch:04b}")).cloned());
        }
        order.push(node);
    }
    order
}

#[test]
fn answers_are_longest_match() {
    let mut random = Random::new(3);
    for _ in 0..600 {
        let width = random.within(1, 10) as u32;
        let n = random.within(0, 30) as usize;
        let table = random.table(width, n);
        let (record, rows) = built(&table);
        let order = by_a_queue(&table);
        assert_eq!((record.supernodes as usize, record.hops as usize), (order.len(), table.value.len()));
        for address in 0..1u32 << width {
            let found = lookup(&record, &rows, address).unwrap();
            assert_eq!((found.hop(), found.length()), table.answer(address));
            let whole = bits(width, address, width);
            let begin: Vec<usize> = (0..order.len()).filter(|&i| whole.starts_with(&order[i])).collect();
            assert_eq!(walk(&record, &rows, address).unwrap().visited, begin);
            assert!(found.reads() == begin.len() as u32 && found.reads() <= width / 4 + 1);
        }
    }
}

#[test]
fn nothing_off_the_path_counts() {
    let mut random = Random::new(4);
    for _ in 0..300 {
        let width = random.within(1, 8) as u32;
        let table = random.table(width, 12);
        let (record, rows) = built(&table);
        let address = random.within(0, (1 << width) - 1) as u32;
        let path = walk(&record, &rows, address).unwrap();
        let mut other = rows.clone();
        for i in (0..rows.internal.len()).filter(|i| !path.visited.contains(i)) {
            (other.internal[i], other.external[i]) = (random.next() as u16, random.next() as u16);
            (other.first_child[i], other.first_hop[i]) = (random.next() as u32, random.next() as u32);
        }
        for i in (0..rows.hop_row.len()).filter(|i| path.bests.last().map(|best| best.place) != Some(*i as u64)) {
            other.hop_row[i] = random.next() as u16;
        }
        assert_eq!(lookup(&record, &rows, address), lookup(&record, &other, address));
    }
}

#[test]
fn damaged_rows() {
    let (record, rows) = built(&eight());
    let address = number("1100001");
    let damage = |record: &Bitmap, rows: &Supernodes| walk(record, rows, address).map(|_| ());
    assert_eq!(damage(&Bitmap { supernodes: 4, ..record }, &rows), Err(Damage::RowsTooShort));
    assert_eq!(damage(&Bitmap { hops: 9, ..record }, &rows), Err(Damage::HopsTooShort));
    assert_eq!(damage(&Bitmap { supernodes: 2, ..record }, &rows), Err(Damage::SupernodePastEnd));
    assert_eq!(damage(&Bitmap { hops: 6, ..record }, &rows), Err(Damage::HopPastEnd));
    assert_eq!(damage(&Bitmap { hops: 7, ..record }, &rows), Ok(()));
    let mut next = rows.clone();
    next.external[2] = 1 << 2;
    // Of 1100001 three bits are left at level 4, and the fourth counts as 0: branch 0010.
    assert_eq!(damage(&record, &next), Err(Damage::LevelAboveWidth));
    next.first_child[0] = u32::MAX;
    assert_eq!(damage(&record, &next), Err(Damage::SupernodePastEnd));
    let mut none = rows.clone();
    none.hop_row[6] = 0;
    assert_eq!(lookup(&record, &none, address), found(0, 0, 2));
    assert_eq!(lookup(&Bitmap { supernodes: 0, ..record }, &rows, address), found(0, 0, 0));
    assert_eq!(lookup(&Bitmap { width: 33, ..record }, &rows, 0), Err(Refusal { number: 1, detail: 0 }));
}

#[test]
fn bits_past_the_width() {
    // W = 4: the supernode of a whole entry begins at level W itself, and holds it at place 0.
    let (record, mut rows) = built(&table(4, &[("1111", 5)]));
    assert_eq!((record.supernodes, rows.internal[1], rows.first_hop[1]), (2, 1, 0));
    assert_eq!(lookup(&record, &rows, 15), found(5, 4, 2));
    // An entry of 5 bits there matches nothing.
    rows.internal[1] = 2;
    assert_eq!(lookup(&record, &rows, 15), found(0, 0, 2));
    // Bit 15 of an internal map is no place.
    rows.internal[1] = 1 << 15;
    assert_eq!(lookup(&record, &rows, 15), found(0, 0, 2));
    rows.external[1] = 2;
    assert_eq!(lookup(&record, &rows, 15), found(0, 0, 2));
    rows.external[1] = 1;
    assert_eq!(walk(&record, &rows, 15), Err(Damage::LevelAboveWidth));
}
