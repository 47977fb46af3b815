//! The number of links (02, [7]): each call that tests a table or rules takes a hop up to that number, and a discard whatever the
//! number is; it refuses any other hop by 4, and then changes no list. What an accepted call leaves does not depend on the number.

mod common;

use common::{Made, MadeBitmap, MadeRules, EIGHT, KINDS, WORDS};
use hongsamuk::*;

/// The eight prefixes as destinations, each with the sources that begin with 0. Their source tries are numbered up to 8, which are no
/// hops: with fewer links they stay good.
const EIGHT_RULES: Rules = Rules {
    width: EIGHT.width,
    links: LINKS,
    dest_value: EIGHT.value,
    dest_length: EIGHT.length,
    source_value: &[0; 8],
    source_length: &[1; 8],
    action: EIGHT.hop,
};
/// The hop of the table's last entry: the fewest links that it takes.
const FEWEST: u16 = 8;
const ZONE: Prefix = Prefix { value: 0b1100000, bits: 4 };

// Builds with two levels, in room for either kind: a source trie has one node and two elements.

fn elements(kind: Kind, table: Table) -> Made {
    Made::of(kind, 2, table, WORDS, 32)
}

fn bitmap(table: Table) -> MadeBitmap {
    MadeBitmap::of(table, 14 * NODE_ROW, 3, 8)
}

fn tries(kind: Kind, rules: Rules) -> MadeRules {
    MadeRules::of(kind, 2, rules, WORDS + 8 * SCRATCH_ROW, 32 + 8 * 2, 8 * TRIE_ROW)
}

fn refused(number: u32, index: usize) -> Outcome {
    Outcome::Refused { number, detail: index as u64 }
}

/// All hops but that of entry i are `others`.
fn hops(others: u16, i: usize, hop: u16) -> [u16; 8] {
    let mut hops = [others; 8];
    hops[i] = hop;
    hops
}

/// The outcome of a call, which accepted has cleared scratch and made something, and refused has left all as it was.
fn seen(outcome: Outcome, scratch: &[u64], made_nothing: bool) -> Outcome {
    let accepted = outcome == Outcome::Accepted;
    assert!(scratch.iter().all(|x| *x == if accepted { 0 } else { 7 }));
    assert_ne!(made_nothing, accepted);
    outcome
}

/// The zone of the last three entries; refused, it is the empty part at 0.
fn seen_zone(table: Table) -> Outcome {
    let (outcome, part) = match zone_span(table, ZONE) {
        Span::Part { index, count } => (Outcome::Accepted, index as usize..(index + count) as usize),
        Span::Refused { number, detail } => (Outcome::Refused { number, detail }, 0..0),
    };
    assert_eq!(part, if outcome == Outcome::Accepted { 5..8 } else { 0..0 });
    assert_eq!(zone(table, ZONE).as_ptr_range(), table.value[part].as_ptr_range());
    outcome
}

/// Asks every call about the eight prefixes with these hops.
fn expect(links: u16, hop: [u16; 8], expected: Outcome) {
    let (table, rules) = (Table { links, hop: &hop, ..EIGHT }, Rules { links, action: &hop, ..EIGHT_RULES });
    let answers = |call: &str, outcome| assert_eq!(outcome, expected, "{call}: {links} links, hops {hop:?}");
    answers("check", check(table));
    answers("zone", seen_zone(table));
    let made = bitmap(table);
    let nothing = made.is_untouched() && made.built.record == Bitmap::default();
    answers("bitmap", seen(made.built.outcome, &made.scratch, nothing));
    for kind in KINDS {
        let mut scratch = [7; WORDS];
        let chosen = choose(kind, 2, table, &mut scratch);
        let nothing = chosen.cost == 0 && chosen.strides == [0; LEVELS];
        answers(&format!("choice, {kind:?}"), seen(chosen.outcome, &scratch, nothing));
        let made = elements(kind, table);
        let nothing = made.is_untouched() && made.built.record == Record::default();
        answers(&format!("elements, {kind:?}"), seen(made.built.outcome, &made.scratch, nothing));
        let made = tries(kind, rules);
        let nothing = made.is_untouched() && made.built.record == RuleRecord::default();
        answers(&format!("rules, {kind:?}"), seen(made.built.outcome, &made.scratch, nothing));
    }
}

#[test]
fn the_last_link_and_the_next() {
    for links in [1, 2, 7, 8, 255, 256, 65_532, 65_533] {
        for i in 0..8 {
            expect(links, hops(1, i, links), Outcome::Accepted);
            expect(links, hops(1, i, links + 1), refused(4, i));
        }
    }
}

/// A discard takes no link; 65,534 is the last hop that does.
#[test]
fn discards() {
    for links in [0, 1, 65_533, 65_534, LINKS] {
        expect(links, [DISCARD; 8], Outcome::Accepted);
    }
    for links in [65_534, LINKS] {
        expect(links, hops(DISCARD, 7, 65_534), Outcome::Accepted);
    }
    expect(65_533, hops(DISCARD, 7, 65_534), refused(4, 7));
}

#[test]
fn no_links() {
    for i in 0..8 {
        for hop in [1, 8, 65_534] {
            expect(0, hops(DISCARD, i, hop), refused(4, i));
        }
    }
}

#[test]
fn hop_0() {
    for links in [0, 1, 65_534, LINKS] {
        for i in 0..8 {
            expect(links, hops(DISCARD, i, 0), refused(4, i));
        }
    }
}

/// The first three tests come before; at an entry 4 comes before 5, and the lowest index is told; the other tests come after.
#[test]
fn the_order_of_tests() {
    let few = Table { links: FEWEST - 1, ..EIGHT };
    assert_eq!(check(Table { width: 33, ..few }), refused(1, 0));
    assert_eq!(check(Table { hop: &EIGHT.hop[1..], ..few }), refused(3, 0));
    // entry 5 is entry 4 once more
    let twice = Table { length: &[1, 1, 5, 4, 4, 4, 6, 7], ..EIGHT };
    for (links, outcome) in [(0, refused(4, 0)), (2, refused(4, 2)), (5, refused(4, 5)), (6, refused(5, 5))] {
        assert_eq!(check(Table { links, ..twice }), outcome);
    }
    let malformed = Prefix { bits: 1, ..ZONE };
    assert_eq!(zone_span(few, malformed), Span::Refused { number: 4, detail: 7 });
    for kind in KINDS {
        assert_eq!(choose(kind, 33, few, &mut []).outcome, refused(2, 0));
        assert_eq!(choose(kind, 2, few, &mut []).outcome, refused(4, 7));
    }
}

/// What the fewest links leave, in every list, is what the most links leave.
#[test]
fn the_number_leaves_no_trace() {
    let (table, rules) = (Table { links: FEWEST, ..EIGHT }, Rules { links: FEWEST, ..EIGHT_RULES });
    expect(FEWEST, [1, 2, 5, 4, 3, 6, 7, 8], Outcome::Accepted);
    assert_eq!(bitmap(table), bitmap(EIGHT));
    for kind in KINDS {
        let choice = |table| choose(kind, 2, table, &mut [7; WORDS]);
        assert_eq!(choice(table), choice(EIGHT));
        assert_eq!(elements(kind, table), elements(kind, EIGHT));
        assert_eq!(tries(kind, rules), tries(kind, EIGHT_RULES));
    }
}
