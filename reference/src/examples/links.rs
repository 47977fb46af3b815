//! Hops that the gateway hasn't got (02, [7]): each number of links against each hop, in every call that makes test 4 and
//! at every place; the order of tests; what an accepted call leaves; and the line of the tablet's text.

use super::{built, eight, room, table};
use crate::bitmap::{self, Supernodes};
use crate::build::{build, chosen, SCRATCH_ROW};
use crate::choices::Kind;
use crate::random::Random;
use crate::rules::{build_rules, Rule, Rules};
use crate::table::{fewest_links, Refusal, Table, DISCARD, LINKS};
use crate::tablet;

const KINDS: [Kind; 2] = [Kind::Fixed, Kind::Variable];

type Outcome = Result<(), Refusal>;

fn refused(number: u32, detail: u64) -> Outcome {
    Err(Refusal { number, detail })
}

/// Lists for a bitmap of at most so many rows and hops.
fn bitmap_room(n: usize) -> Supernodes {
    Supernodes {
        internal: vec![0; n],
        external: vec![0; n],
        first_child: vec![0; n],
        first_hop: vec![0; n],
        hop_row: vec![0; n],
    }
}

/// The outcome of every call on a table that makes test 4, in roomy lists.
fn outcomes(table: &Table) -> Vec<Outcome> {
    let mut all = vec![table.check(), table.zone(0, 0).map(|_| ())];
    for kind in KINDS {
        all.push(chosen(kind, 3, table, &mut [7; 64 * SCRATCH_ROW]).0);
        all.push(build(kind, 3, table, &mut [7; 64 * SCRATCH_ROW], &mut room(256)).0);
    }
    all.push(bitmap::build(table, &mut [7; 256], &mut bitmap_room(64)).0);
    all
}

/// The same of rules.
fn rule_outcomes(rules: &Rules) -> Vec<Outcome> {
    let built = |kind| build_rules(kind, 3, rules, &mut [7; 64 * SCRATCH_ROW], &mut room(256), &mut [9; 60]).0;
    [rules.check()].into_iter().chain(KINDS.map(built)).collect()
}

fn each_is(outcomes: &[Outcome], expected: Outcome) {
    assert!(outcomes.iter().all(|outcome| *outcome == expected), "{outcomes:?} is not {expected:?}");
}

/// Rules with a table's entries for destinations, any source, and its hops for actions.
fn ruled(table: &Table) -> Rules {
    let rule = |i: usize| (table.value[i], table.length[i], 0, 0, table.hop[i]);
    Rules::of(table.width, &(0..table.hop.len()).map(rule).collect::<Vec<Rule>>()).with_links(table.links)
}

/// With 0, 1, 65,533, 65,534 and 65,535 links: hops 0, 1, that of the last link, the one after it, 65,534 and 65,535, at
/// the first, the middle and the last entry among discards.
#[test]
fn each_hop_at_each_place() {
    let cases: [(u16, &[u16], &[u16]); 5] = [
        (0, &[65535], &[0, 1, 2, 65534]),
        (1, &[1, 65535], &[0, 2, 3, 65534]),
        (65533, &[1, 65532, 65533, 65535], &[0, 65534]),
        (65534, &[1, 65533, 65534, 65535], &[0]),
        (65535, &[1, 65533, 65534, 65535], &[0]),
    ];
    for (links, accepted, refused_hops) in cases {
        for at in 0..3 {
            let of = |hop: u16| {
                let mut made = table(4, &[("", DISCARD), ("01", DISCARD), ("1", DISCARD)]);
                (made.links, made.hop[at]) = (links, hop);
                made
            };
            for hop in accepted {
                each_is(&outcomes(&of(*hop)), Ok(()));
                each_is(&rule_outcomes(&ruled(&of(*hop))), Ok(()));
            }
            for hop in refused_hops {
                each_is(&outcomes(&of(*hop)), refused(4, at as u64));
                each_is(&rule_outcomes(&ruled(&of(*hop))), refused(4, at as u64));
            }
        }
    }
}

/// Entry by entry, 4 first at each: the lowest index is reported, whichever test it fails.
#[test]
fn lowest_index() {
    let rising = [("0", 1), ("01", 2), ("1", 3)];
    let falling = [("0", 1), ("1", 2), ("01", 3)];
    let cases = [
        (rising, 2, refused(4, 2)),
        (rising, 1, refused(4, 1)),
        (rising, 0, refused(4, 0)),
        (falling, 3, refused(5, 2)),
        // Entry 2 fails both tests.
        (falling, 2, refused(4, 2)),
        // An earlier entry lacks its link.
        (falling, 1, refused(4, 1)),
        // A later one does.
        ([("1", 1), ("0", 1), ("01", 3)], 1, refused(5, 1)),
        ([("0", 1), ("0", 2), ("01", 3)], 2, refused(5, 1)),
        ([("0", 0), ("01", 2), ("1", 3)], 1, refused(4, 0)),
    ];
    for (entries, links, expected) in cases {
        let made = table(4, &entries).with_links(links);
        each_is(&outcomes(&made), expected);
        each_is(&rule_outcomes(&ruled(&made)), expected);
    }
    // Tests 1 to 3 come before, 6 and 7 after.
    let few = eight().with_links(7);
    assert_eq!(Table { width: 0, ..few.clone() }.check(), refused(1, 0));
    assert_eq!(chosen(Kind::Fixed, 33, &few, &mut []).0, refused(2, 0));
    assert_eq!(Table { length: vec![1; 7], ..few.clone() }.check(), refused(3, 0));
    assert_eq!(chosen(Kind::Fixed, 2, &few, &mut []).0, refused(4, 7));
    assert_eq!(built(Kind::Variable, 2, &few, 10, 25).0, refused(4, 7));
}

/// A prefix asked about is malformed by 4's tests except the hop's, after all tests of the table.
#[test]
fn zone_after_the_table() {
    assert_eq!(eight().with_links(8).zone(97, 4), Err(Refusal { number: 10, detail: 0 }));
    assert_eq!(eight().with_links(4).zone(97, 4), Err(Refusal { number: 4, detail: 2 }));
}

/// With just enough links each call leaves what it leaves with the most; with one less it is refused at the first hop of
/// the last link.
#[test]
fn nothing_else_changes() {
    let mut random = Random::new(10);
    for _ in 0..200 {
        let width = random.within(1, 6) as u32;
        let made = random.table(width, 8);
        let enough = made.with_links(fewest_links(&made.hop));
        for kind in KINDS {
            assert_eq!(built(kind, 2, &enough, 64, 64), built(kind, 2, &made, 64, 64));
            let choice = |table: &Table| chosen(kind, 2, table, &mut [7; 64 * SCRATCH_ROW]);
            assert_eq!(choice(&enough), choice(&made));
        }
        let bitmap_of = |table: &Table| {
            let mut rows = bitmap_room(64);
            (bitmap::build(table, &mut [7; 512], &mut rows), rows)
        };
        assert_eq!(bitmap_of(&enough), bitmap_of(&made));
        if enough.links > 0 {
            let first = made.hop.iter().position(|hop| *hop == enough.links).unwrap();
            each_is(&outcomes(&made.with_links(enough.links - 1)), refused(4, first as u64));
        }
    }
}

/// The same of rules. Destinations need no link, however many they are: the numbers of their tries are no hops.
#[test]
fn nothing_else_of_rules_changes() {
    let mut random = Random::new(11);
    let built = |rules: &Rules, kind| {
        let (mut rows, mut list) = (room(512), vec![9; 60]);
        (build_rules(kind, 2, rules, &mut [7; 128 * SCRATCH_ROW], &mut rows, &mut list), rows, list)
    };
    for _ in 0..200 {
        let width = random.within(1, 4) as u32;
        let made = random.rules(width, 10);
        let enough = made.with_links(fewest_links(&made.action));
        for kind in KINDS {
            assert_eq!(built(&enough, kind), built(&made, kind));
        }
        if enough.links > 0 {
            let first = made.action.iter().position(|action| *action == enough.links).unwrap();
            each_is(&rule_outcomes(&made.with_links(enough.links - 1)), refused(4, first as u64));
        }
    }
    let many =
        |action, links| Rules::of(4, &(0..12).map(|i| (i, 4, 0, 0, action)).collect::<Vec<Rule>>()).with_links(links);
    each_is(&rule_outcomes(&many(DISCARD, 0)), Ok(()));
    each_is(&rule_outcomes(&many(1, 1)), Ok(()));
    each_is(&rule_outcomes(&many(1, 0)), refused(4, 0));
}

/// No generator and no test above states too few links by accident.
#[test]
fn most_links_unless_stated() {
    let mut random = Random::new(12);
    assert_eq!((random.table(8, 9).links, random.rules(8, 9).links, eight().links), (LINKS, LINKS, LINKS));
}

/// The text's fourth line: decimal, without leading zeros, at most five digits and at most 65,535; else it is 11 there.
#[test]
fn line_of_the_text() {
    let tail = "entries=2\nbits=\nhop=3\nbits=10\nhop=65535\nqueries=0\n";
    let text = |fourth: &str| format!("width=2\nkind=fst\nlevels=1\n{fourth}{tail}");
    let report = |fourth: &str| tablet::run(text(fourth).as_bytes());
    let accepted = "refusal=0\ndetail=0\nelements=4\nroot=2\n";
    for links in ["3", "4", "65534", "65535"] {
        assert_eq!(report(&format!("links={links}\n")), accepted);
    }
    for links in ["0", "1", "2"] {
        assert_eq!(report(&format!("links={links}\n")), "refusal=4\ndetail=0\n");
    }
    for bad in ["65536", "99999", "100000", "", "00", "03", "-1", "+3", " 3", "3 ", "3x"] {
        assert_eq!(report(&format!("links={bad}\n")), "refusal=11\ndetail=4\n");
    }
    for absent in ["", "link=3\n", "LINKS=3\n", "links\n", "hop=3\n"] {
        assert_eq!(report(absent), "refusal=11\ndetail=4\n");
    }
    assert_eq!(report("links=3\nlinks=3\n"), "refusal=11\ndetail=5\n");
    // Text is tested first.
    let later = text("links=0\n").replace("queries=0", "queries=x");
    assert_eq!(tablet::run(later.as_bytes()), "refusal=11\ndetail=10\n");
}

/// The line stands behind `levels=` and before `entries=`, nowhere else; the text may end early in it or behind it.
#[test]
fn place_of_the_line() {
    let report = |text: &str| tablet::run(text.as_bytes());
    let before = "width=2\nkind=fst\nlinks=3\nlevels=1\nentries=0\nqueries=0\n";
    let after = "width=2\nkind=fst\nlevels=1\nentries=0\nlinks=3\nqueries=0\n";
    assert_eq!(report(before), "refusal=11\ndetail=3\n");
    assert_eq!(report(after), "refusal=11\ndetail=4\n");
    for early in ["", "links", "links=", "links=3"] {
        assert_eq!(report(&format!("width=2\nkind=fst\nlevels=1\n{early}")), "refusal=11\ndetail=4\n");
    }
    assert_eq!(report("width=2\nkind=fst\nlevels=1\nlinks=3\n"), "refusal=11\ndetail=5\n");
    // Discards alone need no link.
    let discards = "width=1\nkind=vst\nlevels=1\nlinks=0\nentries=1\nbits=1\nhop=65535\nqueries=1\naddress=1\n";
    let discarded = "refusal=0\ndetail=0\nelements=2\nroot=1\naddress=1\nhop=65535\nlength=1\nreads=1\n";
    assert_eq!(report(discards), discarded);
}
