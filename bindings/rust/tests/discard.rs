//! Routes that discard packets (02, [4]): 02's own example in elements of both kinds and as a tree bitmap, and the hop of a discard
//! wherever else a lookup finds it.

mod common;

use common::{Made, MadeBitmap, KINDS};
use hongsamuk::*;

/// 10 to hop 1, and 1010 discarded.
const CORNER: Table = Table { width: 4, links: LINKS, value: &[0b1000, 0b1010], length: &[2, 4], hop: &[1, DISCARD] };

/// An accepted build.
fn made(kind: Kind, levels: u32, table: Table) -> Made {
    let made = Made::of(kind, levels, table, 4 * SCRATCH_ROW, 16);
    assert_eq!(made.built.outcome, Outcome::Accepted);
    made
}

#[test]
fn a_discarded_corner_in_elements() {
    for kind in KINDS {
        for levels in 1..=LEVELS as u32 {
            let made = made(kind, levels, CORNER);
            assert!(
                matches!(made.lookup(0b1010), Answer::Discard { length: 4, reads } if (1..=levels).contains(&reads))
            );
            for address in [0b1000, 0b1001, 0b1011] {
                assert!(matches!(made.lookup(address), Answer::Match { hop: 1, length: 2, .. }), "{address}");
            }
            assert!(matches!(made.lookup(0b0111), Answer::NoRoute { .. }));
        }
    }
}

#[test]
fn rows_of_the_corner() {
    let made = made(Kind::Variable, 2, CORNER);
    assert_eq!((made.built.record.elements, made.built.record.strides[0]), (8, 2));
    assert_eq!(made.hop[..8], [0, 0, 1, 0, 0, 0, DISCARD, 0]);
    assert_eq!(made.length[..8], [0, 0, 2, 0, 0, 0, 4, 0]);
    assert_eq!(made.lookup(0b1010), Answer::Discard { length: 4, reads: 2 });
    assert_eq!(made.lookup(0b1011), Answer::Match { hop: 1, length: 2, reads: 2 });
}

#[test]
fn a_discarded_corner_in_a_bitmap() {
    let made = MadeBitmap::of(CORNER, 5 * NODE_ROW, 2, 2);
    assert_eq!((made.built.outcome, &made.hop_row[..]), (Outcome::Accepted, &[1, DISCARD][..]));
    assert_eq!(made.lookup(0b1010), Answer::Discard { length: 4, reads: 2 });
    assert_eq!(made.lookup(0b1011), Answer::Match { hop: 1, length: 2, reads: 1 });
    assert_eq!(made.lookup(0b0111), Answer::NoRoute { reads: 1 });
}

/// A batch tells them by number and hop.
#[test]
fn a_batch() {
    let made = made(Kind::Fixed, 2, CORNER);
    let (mut number, mut hop, mut length, mut reads) = ([9; 4], [9; 4], [9; 4], [9; 4]);
    let room = AnswersMut { number: &mut number, hop: &mut hop, length: &mut length, reads: &mut reads };
    assert_eq!(lookup_batch(&made.built.record, made.rows(), &[0b1010, 0b1011, 0b0111, 16], room), 4);
    assert_eq!((number, hop), ([0, 0, 0, 8], [DISCARD, 1, 0, 0]));
    assert_eq!((length, reads), ([4, 2, 0, 0], [2, 2, 1, 0]));
}

/// A floor that discards, and the hop of a discard in rows and records that no build left.
#[test]
fn wherever_it_is_found() {
    let floor = Table { width: 4, links: LINKS, value: &[0], length: &[0], hop: &[DISCARD] };
    assert_eq!(made(Kind::Variable, 1, floor).lookup(5), Answer::Discard { length: 0, reads: 0 });
    let mut made = made(Kind::Variable, 2, CORNER);
    made.built.record.floor = DISCARD;
    assert_eq!(made.lookup(0b0111), Answer::Discard { length: 0, reads: 1 });
    made.hop[1] = DISCARD - 1;
    assert_eq!(made.lookup(0b0111), Answer::Match { hop: DISCARD - 1, length: 0, reads: 1 });
    made.hop[2] = DISCARD;
    assert_eq!(made.lookup(0b1011), Answer::Discard { length: 2, reads: 2 });
}

/// With the most links only hop 0 is refused by 4.
#[test]
fn hops_of_a_table() {
    for hop in [1, 65_533, 65_534, DISCARD] {
        assert_eq!(check(Table { hop: &[hop, hop], ..CORNER }), Outcome::Accepted);
    }
    assert_eq!(check(Table { hop: &[DISCARD, 0], ..CORNER }), Outcome::Refused { number: 4, detail: 1 });
}
