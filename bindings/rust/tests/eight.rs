//! The values that 01 gives for its eight-prefix table and for its small one, and each refusal once; shared lengths at the edges.

mod common;

use common::{Made, EIGHT, KINDS, WORDS};
use hongsamuk::*;

fn refused(number: u32, detail: u64) -> Outcome {
    Outcome::Refused { number, detail }
}

/// The strides of a record that begin with these.
fn strides(first: &[u8]) -> [u8; LEVELS] {
    let mut strides = [0; LEVELS];
    strides[..first.len()].copy_from_slice(first);
    strides
}

fn costs(kind: Kind) -> Vec<u64> {
    (1..=4).map(|k| choose(kind, k, EIGHT, &mut vec![7; WORDS]).cost).collect()
}

#[test]
fn costs_and_strides() {
    assert_eq!(costs(Kind::Fixed), [128, 32, 20, 18]);
    assert_eq!(costs(Kind::Variable), [128, 26, 20, 18]);
    let chosen = |k| choose(Kind::Fixed, k, EIGHT, &mut vec![7; WORDS]).strides;
    assert_eq!(chosen(2), strides(&[4, 3]));
    assert_eq!(chosen(3), strides(&[3, 2, 2]));
    assert_eq!(chosen(4), strides(&[1, 2, 2, 2]));
}

#[test]
fn longest_match_with_every_limit() {
    let answers = [(97, 7), (96, 8), (103, 6), (104, 3), (71, 5), (79, 2), (127, 3), (0, 1)];
    for kind in KINDS {
        for levels in 1..=LEVELS as u32 {
            let made = Made::of(kind, levels, EIGHT, WORDS, 128);
            assert_eq!(made.built.outcome, Outcome::Accepted);
            for (address, best) in answers {
                match made.lookup(address) {
                    Answer::Match { hop, reads, .. } => assert!(hop == best && (1..=levels).contains(&reads)),
                    other => panic!("{address}: {other:?}"),
                }
            }
        }
    }
}

#[test]
fn variable_with_two_levels() {
    let made = Made::of(Kind::Variable, 2, EIGHT, WORDS + 5, 30);
    let record = Record { width: 7, levels: 2, elements: 26, floor: 0, strides: strides(&[4]) };
    assert_eq!(made.built, Built { outcome: Outcome::Accepted, record });
    assert!(made.scratch.iter().all(|x| *x == 0));
    assert!(made.hop[26..] == [9; 4] && made.length[26..] == [9; 4]);
    assert!(made.link[26..] == [9; 4] && made.stride[26..] == [9; 4]);
    assert_eq!((made.link[8], made.stride[8], made.link[12], made.stride[12]), (16, 1, 18, 3));
    assert_eq!(made.lookup(97), Answer::Match { hop: 7, length: 6, reads: 2 });
    assert_eq!(made.lookup(0), Answer::Match { hop: 1, length: 1, reads: 1 });
    assert_eq!(made.lookup(128), Answer::Refused { number: 8 });
}

#[test]
fn rows_of_the_small_table() {
    let table = Table { width: 3, links: LINKS, value: &[4, 5], length: &[1, 3], hop: &[1, 2] };
    let made = Made::of(Kind::Variable, 2, table, 3 * SCRATCH_ROW, 6);
    assert_eq!(made.hop, [0, 1, 0, 2, 0, 0]);
    assert_eq!(made.length, [0, 1, 0, 3, 0, 0]);
    assert_eq!(made.link, [0, 2, 0, 0, 0, 0]);
    assert_eq!(made.stride, [0, 2, 0, 0, 0, 0]);
    assert_eq!(made.lookup(0b101), Answer::Match { hop: 2, length: 3, reads: 2 });
    assert_eq!(made.lookup(0b111), Answer::Match { hop: 1, length: 1, reads: 2 });
    assert_eq!(made.lookup(0b011), Answer::NoRoute { reads: 1 });
}

#[test]
fn refusals_of_a_build() {
    let outcome = |table, levels, words, room| Made::of(Kind::Variable, levels, table, words, room).built.outcome;
    assert_eq!(outcome(Table { width: 33, ..EIGHT }, 2, WORDS, 26), refused(1, 0));
    assert_eq!(outcome(EIGHT, 33, WORDS, 26), refused(2, 0));
    assert_eq!(outcome(Table { hop: &EIGHT.hop[1..], ..EIGHT }, 2, WORDS, 26), refused(3, 0));
    assert_eq!(outcome(Table { hop: &[1, 2, 5, 4, 3, 0, 7, 8], ..EIGHT }, 2, WORDS, 26), refused(4, 5));
    assert_eq!(outcome(Table { length: &[1, 1, 5, 4, 4, 4, 6, 7], ..EIGHT }, 2, WORDS, 26), refused(5, 5));
    assert_eq!(outcome(EIGHT, 2, WORDS - 1, 26), refused(6, 10));
    assert_eq!(outcome(EIGHT, 2, WORDS, 25), refused(7, 26));
    assert_eq!(outcome(EIGHT, 8, WORDS, 26), Outcome::Accepted);
    assert_eq!(outcome(EIGHT, 9, WORDS, 26), Outcome::Accepted);
    assert_eq!(outcome(EIGHT, 32, WORDS, 26), Outcome::Accepted);
}

#[test]
fn what_refused_builds_leave() {
    let scarce = Made::of(Kind::Fixed, 2, EIGHT, WORDS, 31);
    assert_eq!((scarce.built.outcome, scarce.built.record), (refused(7, 32), Record::default()));
    assert!(scarce.scratch.iter().all(|x| *x == 0));
    assert!(scarce.is_untouched());
    let early = Made::of(Kind::Fixed, 2, EIGHT, WORDS - 1, 32);
    assert_eq!((early.built.outcome, early.built.record), (refused(6, 10), Record::default()));
    assert!(early.scratch.iter().all(|x| *x == 7) && early.is_untouched());
}

#[test]
fn check_and_choose_refuse() {
    assert_eq!(check(EIGHT), Outcome::Accepted);
    assert_eq!(check(Table { width: 6, ..EIGHT }), refused(4, 1));
    let mut scratch = [7; WORDS - 1];
    let chosen = choose(Kind::Fixed, 3, EIGHT, &mut scratch);
    assert_eq!(chosen, Chosen { outcome: refused(6, 10), cost: 0, strides: [0; LEVELS] });
    assert!(scratch.iter().all(|x| *x == 7));
}

#[test]
fn empty_lists() {
    let none = Table { width: 7, links: LINKS, value: &[], length: &[], hop: &[] };
    let made = Made::of(Kind::Fixed, 1, none, 0, 0);
    assert_eq!(made.built.outcome, Outcome::Accepted);
    assert_eq!(made.lookup(5), Answer::NoRoute { reads: 0 });
    assert_eq!(zone(none, Prefix { value: 64, bits: 1 }), []);
    let floor = Table { width: 7, links: LINKS, value: &[0], length: &[0], hop: &[9] };
    assert_eq!(Made::of(Kind::Variable, 1, floor, 0, 0).lookup(5), Answer::Match { hop: 9, length: 0, reads: 0 });
}

#[test]
fn zones() {
    let prefix = |value, bits| Prefix { value, bits };
    assert_eq!(zone_span(EIGHT, prefix(96, 4)), Span::Part { index: 5, count: 3 });
    assert_eq!(zone_span(EIGHT, prefix(72, 4)), Span::Part { index: 3, count: 0 });
    assert_eq!(zone_span(EIGHT, prefix(97, 4)), Span::Refused { number: 10, detail: 0 });
    assert_eq!(zone_span(Table { width: 6, ..EIGHT }, prefix(0, 1)), Span::Refused { number: 4, detail: 1 });
    assert_eq!(zone(EIGHT, prefix(96, 4)).as_ptr(), EIGHT.value[5..].as_ptr());
    assert_eq!(zone(EIGHT, prefix(96, 4)).len(), 3);
    assert!(zone(EIGHT, prefix(97, 4)).is_empty());
    assert_eq!(shared_length(7, prefix(68, 5), prefix(80, 3)), Shared::Length(2));
    assert_eq!(shared_length(0, prefix(68, 5), prefix(80, 3)), Shared::Refused { number: 1 });
    assert_eq!(shared_length(7, prefix(68, 4), prefix(80, 3)), Shared::Refused { number: 10 });
}

/// All 32 bits and one bit; equal values, and values that differ in the first or the last bit; nothing is shared with no bits.
#[test]
fn shared_lengths_at_the_edges() {
    let last = u32::MAX;
    for (width, a, b, bits) in [
        (32, last, last, 32),
        (32, last, last - 1, 31),
        (32, last, last >> 1, 0),
        (1, 0, 0, 1),
        (1, 1, 1, 1),
        (1, 0, 1, 0),
    ] {
        let whole = |value| Prefix { value, bits: width as u8 };
        assert_eq!(shared_length(width, whole(a), whole(b)), Shared::Length(bits), "{a} and {b} of {width} bits");
        assert_eq!(shared_length(width, whole(a), Prefix { value: 0, bits: 0 }), Shared::Length(0));
    }
}

#[test]
fn batches() {
    let made = Made::of(Kind::Variable, 2, EIGHT, WORDS, 26);
    let (mut number, mut hop, mut length, mut reads) = ([77; 4], [77; 5], [77; 4], [77; 6]);
    let room = AnswersMut { number: &mut number, hop: &mut hop, length: &mut length, reads: &mut reads };
    assert_eq!(lookup_batch(&made.built.record, made.rows(), &[97, 128, 0], room), 3);
    assert_eq!(number, [0, 8, 0, 77]);
    assert_eq!(hop, [7, 0, 1, 77, 77]);
    assert_eq!(length, [6, 0, 1, 77]);
    assert_eq!(reads, [2, 0, 1, 77, 77, 77]);
}

#[test]
fn damaged_rows() {
    let mut made = Made::of(Kind::Variable, 2, EIGHT, WORDS, 26);
    made.link[12] = 25;
    assert_eq!(made.lookup(97), Answer::Refused { number: 9 });
    assert_eq!(made.lookup(0), Answer::Match { hop: 1, length: 1, reads: 1 });
    made.built.record.elements = 27;
    assert_eq!(made.lookup(0), Answer::Refused { number: 9 });
    for levels in [0, 33] {
        made.built.record.levels = levels;
        assert_eq!(made.lookup(0), Answer::Refused { number: 2 });
    }
}
