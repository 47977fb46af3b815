//! The length of the prefix that won (02, [5]): the matched lengths of 01's eight-prefix table in elements of both kinds and as a
//! tree bitmap, a list of lengths that is too short, and lengths that no build wrote.

mod common;

use common::{Made, MadeBitmap, EIGHT, KINDS, WORDS};
use hongsamuk::*;

/// 01's six addresses with the hop and the length of the entry that wins.
const WINNERS: [(u32, u16, u8); 6] =
    [(0b1100001, 7, 6), (0b1100000, 8, 7), (0b1100111, 6, 4), (0b1101000, 3, 2), (0b1000111, 5, 5), (0b1001111, 2, 1)];
/// The entry of length 0 to hop 9, 1 discarded, and 101 to hop 2.
const FLOOR: Table = Table { width: 3, links: LINKS, value: &[0, 4, 5], length: &[0, 1, 3], hop: &[9, DISCARD, 2] };

/// A build with so many lengths, and so much room in the other three lists.
fn make(kind: Kind, levels: u32, table: Table, lengths: usize, room: usize) -> Made {
    Made::in_lists(kind, levels, table, WORDS, [room, lengths, room, room])
}

#[test]
fn winners_in_elements() {
    for kind in KINDS {
        for levels in (1..=9).chain([31, 32]) {
            let made = make(kind, levels, EIGHT, 128, 128);
            assert_eq!(made.built.outcome, Outcome::Accepted);
            for (address, hop, length) in WINNERS {
                assert_eq!(made.lookup(address).won(), Some((hop, length)), "{address} with {levels} levels");
            }
        }
    }
}

#[test]
fn rows_of_the_eight_prefix_table() {
    let made = make(Kind::Variable, 2, EIGHT, 28, 26);
    let own = |hop: &u16| EIGHT.hop.iter().position(|x| x == hop).map_or(0, |i| EIGHT.length[i]);
    assert_eq!(made.length[..26], made.hop.iter().map(own).collect::<Vec<_>>());
    assert_eq!(made.length[26..], [9, 9]);
}

#[test]
fn winners_in_a_bitmap() {
    let made = MadeBitmap::of(EIGHT, 14 * NODE_ROW, 3, 8);
    for (address, hop, length) in WINNERS {
        assert_eq!(made.lookup(address).won(), Some((hop, length)), "{address}");
    }
}

/// The entry of length 0 wins with length 0, in a bitmap as in elements; so does it where it discards.
#[test]
fn the_floor() {
    for kind in KINDS {
        let made = make(kind, 2, FLOOR, 8, 8);
        assert!(matches!(made.lookup(0b011), Answer::Match { hop: 9, length: 0, .. }));
        assert!(matches!(made.lookup(0b111), Answer::Discard { length: 1, .. }));
        assert!(matches!(made.lookup(0b101), Answer::Match { hop: 2, length: 3, .. }));
        let alone = Table { width: 3, links: LINKS, value: &[0], length: &[0], hop: &[DISCARD] };
        assert_eq!(make(kind, 2, alone, 0, 0).lookup(5), Answer::Discard { length: 0, reads: 0 });
    }
    let every = Table { width: 3, links: LINKS, value: &[0], length: &[0], hop: &[9] };
    assert_eq!(MadeBitmap::of(every, NODE_ROW, 1, 1).lookup(5), Answer::Match { hop: 9, length: 0, reads: 1 });
}

/// Lengths are taken as found, as hops are; beside hop 0 they say nothing.
#[test]
fn damaged_lengths() {
    for length in [0, 1, 32, 33, 255] {
        let mut made = make(Kind::Variable, 2, FLOOR, 6, 6);
        made.length.fill(length);
        assert_eq!(made.lookup(0b101), Answer::Match { hop: 2, length, reads: 2 });
        assert_eq!(made.lookup(0b111), Answer::Discard { length, reads: 2 });
        assert_eq!(made.lookup(0b011), Answer::Match { hop: 9, length: 0, reads: 1 });
        made.built.record.floor = 0;
        assert_eq!(made.lookup(0b011), Answer::NoRoute { reads: 1 });
    }
}

/// Refusals 7 and 9 count the length list too.
#[test]
fn the_length_list_alone_too_short() {
    for (kind, elements) in [(Kind::Fixed, 32), (Kind::Variable, 26)] {
        let scarce = make(kind, 2, EIGHT, elements - 1, elements);
        assert_eq!(scarce.built.outcome, Outcome::Refused { number: 7, detail: elements as u64 });
        assert!(scarce.scratch.iter().all(|x| *x == 0) && scarce.is_untouched());
        let mut made = make(kind, 2, EIGHT, elements, elements);
        assert_eq!(made.lookup(97).won(), Some((7, 6)));
        made.length.pop();
        assert_eq!(made.lookup(97), Answer::Refused { number: 9 });
        made.length.clear();
        assert_eq!(made.lookup(97), Answer::Refused { number: 9 });
    }
}

/// A batch answers no more addresses than the length list has places for.
#[test]
fn a_batch() {
    let made = make(Kind::Variable, 2, EIGHT, 26, 26);
    let addresses = WINNERS.map(|(address, ..)| address);
    for places in [6, 4, 1, 0] {
        let (mut number, mut hop, mut length, mut reads) = ([77; 6], [77; 7], [77; 8], [77; 9]);
        let room = AnswersMut { number: &mut number, hop: &mut hop, length: &mut length[..places], reads: &mut reads };
        assert_eq!(lookup_batch(&made.built.record, made.rows(), &addresses, room), places);
        for (i, winner) in WINNERS[..places].iter().enumerate() {
            assert_eq!((addresses[i], hop[i], length[i]), *winner);
        }
        assert!(number[places..].iter().chain(&reads[places..]).all(|x| *x == 77));
        assert!(hop[places..].iter().all(|x| *x == 77) && length[places..].iter().all(|x| *x == 77));
    }
}
