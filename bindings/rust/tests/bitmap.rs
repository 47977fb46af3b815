//! The tree bitmap of 01's eight-prefix table, each refusal once, and damaged records and rows.

mod common;

use common::{Made, MadeBitmap, EIGHT};
use hongsamuk::*;

/// The words of scratch that the table takes as a bitmap: it has 14 nodes.
const WORDS: usize = 14 * NODE_ROW;
const SUPERNODES: usize = 3;
const HOPS: usize = 8;

fn eight() -> MadeBitmap {
    MadeBitmap::of(EIGHT, WORDS, SUPERNODES, HOPS)
}

fn refused(number: u32, detail: u64) -> BuiltBitmap {
    BuiltBitmap { outcome: Outcome::Refused { number, detail }, record: Bitmap::default() }
}

#[test]
fn rows_of_the_eight_prefix_table() {
    let made = MadeBitmap::of(EIGHT, WORDS + 3, SUPERNODES + 1, HOPS + 2);
    let record = Bitmap { width: 7, supernodes: 3, hops: 8 };
    assert_eq!(made.built, BuiltBitmap { outcome: Outcome::Accepted, record });
    assert_eq!(made.internal, [4166, 4, 137, 9]);
    assert_eq!(made.external, [4352, 0, 0, 9]);
    assert_eq!(made.first_child, [1, 0, 0, 9]);
    assert_eq!(made.first_hop, [0, 4, 5, 9]);
    assert_eq!(made.hop_row, [1, 2, 3, 4, 5, 6, 7, 8, 9, 9]);
    assert!(made.scratch.iter().all(|x| *x == 0));
}

#[test]
fn longest_match() {
    let made = eight();
    for (address, hop) in [(97, 7), (96, 8), (103, 6), (104, 3), (71, 5), (79, 2), (127, 3), (0, 1)] {
        assert!(matches!(made.lookup(address), Answer::Match { hop: found, .. } if found == hop), "{address}");
    }
    assert_eq!(made.lookup(97), Answer::Match { hop: 7, length: 6, reads: 2 });
    assert_eq!(made.lookup(0), Answer::Match { hop: 1, length: 1, reads: 1 });
    assert_eq!(made.lookup(128), Answer::Refused { number: 8 });
}

#[test]
fn the_same_hops_and_lengths_as_from_elements() {
    let (bitmap, elements) = (eight(), Made::of(Kind::Variable, 2, EIGHT, common::WORDS, 26));
    for address in 0..128 {
        let won = bitmap.lookup(address).won();
        assert!(won.is_some() && won == elements.lookup(address).won(), "{address}");
    }
}

#[test]
fn refusals_of_a_build() {
    let built = |table, words, supernodes, hops| MadeBitmap::of(table, words, supernodes, hops).built;
    assert_eq!(built(Table { width: 33, ..EIGHT }, WORDS, 3, 8), refused(1, 0));
    assert_eq!(built(Table { hop: &EIGHT.hop[1..], ..EIGHT }, WORDS, 3, 8), refused(3, 0));
    assert_eq!(built(Table { hop: &[1, 2, 5, 4, 3, 0, 7, 8], ..EIGHT }, WORDS, 3, 8), refused(4, 5));
    assert_eq!(built(Table { length: &[1, 1, 5, 4, 4, 4, 6, 7], ..EIGHT }, WORDS, 3, 8), refused(5, 5));
    assert_eq!(built(EIGHT, WORDS - 1, 3, 8), refused(6, 14));
    assert_eq!(built(EIGHT, WORDS, 2, 7), refused(7, 3));
    assert_eq!(built(EIGHT, WORDS, 3, 7), refused(7, 8));
}

#[test]
fn what_refused_builds_leave() {
    for (supernodes, hops) in [(2, 8), (3, 7)] {
        let scarce = MadeBitmap::of(EIGHT, WORDS + 1, supernodes, hops);
        assert!(scarce.scratch.iter().all(|x| *x == 0) && scarce.is_untouched());
    }
    let early = MadeBitmap::of(EIGHT, WORDS - 1, 3, 8);
    assert!(early.scratch.iter().all(|x| *x == 7) && early.is_untouched());
}

#[test]
fn little_in_the_table() {
    let none = Table { width: 7, links: LINKS, value: &[], length: &[], hop: &[] };
    let made = MadeBitmap::of(none, 0, 0, 0);
    assert_eq!(made.built.record, Bitmap { width: 7, supernodes: 0, hops: 0 });
    assert_eq!(made.lookup(5), Answer::NoRoute { reads: 0 });
    let every = Table { width: 7, links: LINKS, value: &[0], length: &[0], hop: &[9] };
    assert_eq!(MadeBitmap::of(every, NODE_ROW, 1, 1).lookup(5), Answer::Match { hop: 9, length: 0, reads: 1 });
    assert_eq!(MadeBitmap::of(every, 0, 1, 1).built, refused(6, 1));
}

#[test]
fn bits_past_the_width() {
    let last = Table { width: 4, links: LINKS, value: &[15], length: &[4], hop: &[5] };
    let mut made = MadeBitmap::of(last, 5 * NODE_ROW, 2, 1);
    assert_eq!(made.lookup(15), Answer::Match { hop: 5, length: 4, reads: 2 });
    made.internal[1] = 2;
    assert_eq!(made.lookup(15), Answer::NoRoute { reads: 2 });
    made.external[1] = 1;
    assert_eq!(made.lookup(15), Answer::Refused { number: 9 });
}

#[test]
fn damaged_rows() {
    let change = |change: fn(&mut MadeBitmap)| {
        let mut made = eight();
        change(&mut made);
        (made.lookup(97), made.lookup(0))
    };
    let (damaged, sound) = (Answer::Refused { number: 9 }, Answer::Match { hop: 1, length: 1, reads: 1 });
    assert_eq!(change(|made| made.built.record.supernodes = 4), (damaged, damaged));
    assert_eq!(change(|made| made.built.record.hops = 9), (damaged, damaged));
    assert_eq!(change(|made| made.built.record.supernodes = 2), (damaged, sound));
    assert_eq!(change(|made| made.built.record.hops = 6), (damaged, sound));
    assert_eq!(change(|made| made.first_child[0] = u32::MAX), (damaged, sound));
    assert_eq!(change(|made| made.first_hop[2] = u32::MAX), (damaged, sound));
    assert_eq!(change(|made| made.external[2] = 4), (damaged, sound));
    assert_eq!(change(|made| made.hop_row[6] = 0), (Answer::NoRoute { reads: 2 }, sound));
    assert_eq!(change(|made| made.hop_row[6] = DISCARD), (Answer::Discard { length: 6, reads: 2 }, sound));
    let width = Answer::Refused { number: 1 };
    assert_eq!(change(|made| made.built.record.width = 0), (width, width));
    let none = Answer::NoRoute { reads: 0 };
    assert_eq!(change(|made| made.built.record.supernodes = 0), (none, none));
}
