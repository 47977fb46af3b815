//! Builds of rules with numbers of links that are enough or too few (02, [7]): an action is tested as a hop is, the numbers
//! of the source tries are not.

use super::{built, figure, look_held, needed, print, rules, sweep_all, Left, Lent};
use crate::build::Elements;
use crate::choices::Kind;
use crate::rules::{build_rules, Rule, Rules, RULES};
use crate::table::{Table, DISCARD, LINKS};
use crate::vectors::choosers::KINDS;
use crate::vectors::links::{otherwise_good, small};
use crate::vectors::Vectors;

/// Lists for a build that is refused before it looks at them.
const NOTHING: Lent = Lent { words: 0, rows: [0; 4], list: 0 };

/// A table's entries as the destinations of rules, or as the sources of one destination; its hops are the actions.
fn ruled(table: &Table, as_dests: bool) -> Rules {
    let rule = |i: usize| match as_dests {
        true => (table.value[i], table.length[i], 0, 0, table.hop[i]),
        false => (1 << (table.width - 1), 1, table.value[i], table.length[i], table.hop[i]),
    };
    Rules::of(table.width, &(0..table.hop.len()).map(rule).collect::<Vec<Rule>>()).with_links(table.links)
}

/// What a build leaves is what it leaves with the most links.
fn hold_rows(made: &Rules, kind: Kind, left: &Left) {
    let (n, numbers, levels) = (left.rows.hop.len(), left.list.len(), left.record.dest.levels);
    let mut rows = Elements { hop: vec![9; n], length: vec![5; n], link: vec![9; n], stride: vec![9; n] };
    let (mut scratch, mut list) = (vec![7; needed(kind, levels, made).words], vec![9; numbers]);
    let most = made.with_links(LINKS);
    let (outcome, record) = build_rules(kind, levels, &most, &mut scratch, &mut rows, &mut list);
    assert!(outcome.is_ok() && record == left.record && (rows, list) == (left.rows.clone(), left.list.clone()));
}

/// With enough links the rows, and what is asked of them. An action is told before the want of scratch, rows or the list of
/// tries, a level limit before an action.
fn tried(vectors: &mut Vectors, made: &Rules) {
    for kind in KINDS {
        let left = built(vectors, made, kind, 2, needed(kind, 2, made));
        if left.record.dest.width > 0 {
            hold_rows(made, kind, &left);
            print(vectors, &left);
            match made.width {
                0..=4 => sweep_all(vectors, made, &left),
                _ => (0..4).for_each(|i| look_held(vectors, made, &left, 64 + 31 * i, 16 * i)),
            }
        }
        built(vectors, made, kind, 32, NOTHING);
        built(vectors, made, kind, 2, Lent { words: needed(kind, 2, made).words, ..NOTHING });
        built(vectors, made, kind, 33, NOTHING);
    }
}

pub fn actions(vectors: &mut Vectors) {
    for (i, table) in small().iter().enumerate() {
        let made = ruled(table, i % 2 == 0);
        rules(vectors, &made);
        for kind in KINDS {
            let left = built(vectors, &made, kind, 2, Lent { words: 600, rows: [16; 4], list: 16 });
            print(vectors, &left);
        }
    }
    let tables = otherwise_good();
    let as_rules = tables.iter().enumerate().map(|(i, table)| ruled(table, i % 2 == 0));
    for made in as_rules.chain((0..=8).map(|links| figure(4).with_links(links))) {
        rules(vectors, &made);
        tried(vectors, &made);
    }
    // Tests 1 and 3 come before an action's.
    let made = figure(4).with_links(6);
    for other in [Rules { width: 33, ..made.clone() }, Rules { source_length: vec![1; 6], ..made }] {
        rules(vectors, &other);
        KINDS.into_iter().for_each(|kind| drop(built(vectors, &other, kind, 2, NOTHING)));
    }
}

/// More destinations than links: the numbers of their tries are no hops. Then the most rules, with the action of the last one
/// at the last link and past it, and one more, which is refused before any action is looked at.
pub fn many(vectors: &mut Vectors) {
    let of = |n: usize, links, action: &dyn Fn(u32) -> u16| {
        let rule = |i: u32| (i, 11, 0, 0, action(i));
        Rules::of(11, &(0..n as u32).map(rule).collect::<Vec<Rule>>()).with_links(links)
    };
    for (n, links, action) in [(12, 0, DISCARD), (12, 1, 1), (12, 11, 11), (12, 11, 12)] {
        let made = of(n, links, &|_| action);
        rules(vectors, &made);
        for kind in KINDS {
            let left = built(vectors, &made, kind, 3, needed(kind, 3, &made));
            look_held(vectors, &made, &left, n as u32 - 1, 5);
        }
    }
    let last = RULES as u32 - 1;
    for (n, links) in [(RULES, 2), (RULES, 1), (RULES + 1, 1)] {
        let made = of(n, links, &|i| if i < last { 1 } else { 2 });
        rules(vectors, &made);
        KINDS.into_iter().for_each(|kind| drop(built(vectors, &made, kind, 3, needed(kind, 3, &made))));
    }
}
