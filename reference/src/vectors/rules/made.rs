//! Builds that are accepted, and all that is asked of them: the seven rules of source document 004, rules of little, discards,
//! nested destinations, every rule list of width 1, random ones with all pairs of addresses, and the most rules.

use super::{built, figure, hold, look, look_held, needed, print, roomy, rules, sweep, sweep_all, Lent};
use crate::choices::Kind;
use crate::random::{cut, Random};
use crate::rules::{Rule, Rules, RULES};
use crate::table::DISCARD;
use crate::vectors::choosers::KINDS;
use crate::vectors::links::any_rules;
use crate::vectors::{any_levels, Vectors};

/// A build in lists just long enough, its rows and all pairs of addresses.
fn whole(vectors: &mut Vectors, made: &Rules, kind: Kind, levels: u32) {
    let left = built(vectors, made, kind, levels, needed(kind, levels, made));
    print(vectors, &left);
    sweep_all(vectors, made, &left);
}

pub fn examples(vectors: &mut Vectors) {
    let seven = figure(4);
    rules(vectors, &seven);
    for (kind, levels) in KINDS.into_iter().flat_map(|kind| [1, 2, 3, 4, 5, 32].map(|levels| (kind, levels))) {
        whole(vectors, &seven, kind, levels);
    }
    for kind in KINDS {
        let need = needed(kind, 2, &seven);
        let [e, ..] = need.rows;
        let lent = Lent { words: need.words + 5, rows: [e, e + 3, e + 2, e + 1], list: need.list + 8 };
        let left = built(vectors, &seven, kind, 2, lent);
        print(vectors, &left);
        sweep(vectors, &left, 17, 17);
        for levels in [0, 31, 32, 33, u32::MAX] {
            let left = built(vectors, &seven, kind, levels, needed(kind, levels.clamp(1, 32), &seven));
            look(vectors, &left, 1, 14);
        }
    }
    let seven = figure(5);
    rules(vectors, &seven);
    for kind in KINDS {
        whole(vectors, &seven, kind, 3);
        let left = built(vectors, &seven, kind, 2, needed(kind, 2, &seven));
        for (dest, source) in [(2, 29), (2, 3), (2, 4), (3, 16), (4, 29), (15, 25), (15, 16), (16, 25), (0, 0)] {
            look_held(vectors, &seven, &left, dest, source);
        }
        for (dest, source) in [(31, 31), (32, 31), (31, 32), (32, 32), (u32::MAX, 0), (0, u32::MAX)] {
            look_held(vectors, &seven, &left, dest, source);
        }
    }
    five(vectors);
}

/// Three destinations, one of them a start of the others, with two, two and one sources.
fn five(vectors: &mut Vectors) {
    let rising = [(4, 1, 0, 0, 1), (4, 1, 2, 2, 2), (4, 2, 4, 1, 3), (4, 2, 6, 2, DISCARD), (6, 2, 0, 1, 4)];
    let made = Rules::of(3, &rising);
    rules(vectors, &made);
    whole(vectors, &made, Kind::Fixed, 2);
}

/// No rule, a rule of no bits, one of all bits, one field without bits, and the ends of widths and actions.
fn sparse() -> Vec<Rules> {
    let mut lists = vec![];
    for width in [1, 4, 31, 32] {
        let (last, bits) = (((1u64 << width) - 1) as u32, width as u8);
        lists.push(Rules::of(width, &[]));
        lists.push(Rules::of(width, &[(0, 0, 0, 0, 65534)]));
        lists.push(Rules::of(width, &[(0, 0, 0, 0, DISCARD), (0, 0, last, bits, 2), (last, bits, 0, 0, 3)]));
        lists.push(Rules::of(width, &[(last, bits, last, bits, 1)]));
        lists.push(Rules::of(width, &[(0, bits, 0, bits, 5), (0, bits, last, bits, 6), (last, bits, 0, bits, 7)]));
    }
    lists
}

pub fn edges(vectors: &mut Vectors) {
    for made in sparse() {
        rules(vectors, &made);
        let last = ((1u64 << made.width) - 1) as u32;
        for (kind, levels) in KINDS.into_iter().flat_map(|kind| [3, 32].map(|levels| (kind, levels))) {
            let left = built(vectors, &made, kind, levels, roomy(kind, levels, &made));
            if made.width <= 4 {
                print(vectors, &left);
                sweep_all(vectors, &made, &left);
            } else {
                for (dest, source) in [(0, 0), (0, last), (last, 0), (last, last), (last / 2, last), (last, last - 1)] {
                    look_held(vectors, &made, &left, dest, source);
                }
            }
            look(vectors, &left, last.wrapping_add(1), 0);
            look(vectors, &left, 0, last.wrapping_add(1));
        }
        built(vectors, &made, Kind::Variable, 1, Lent { words: 0, rows: [0; 4], list: 0 });
    }
}

/// Discards at each place of a chain of destinations and sources, and at all of them.
pub fn discards(vectors: &mut Vectors) {
    let chain = |at: usize| {
        let action = |i: usize| if i == at || at == 6 { DISCARD } else { i as u16 + 1 };
        let places = [(0, 0, 0, 0), (0, 0, 6, 2), (0, 1, 0, 1), (0, 1, 2, 3), (2, 2, 2, 2), (3, 3, 4, 1)];
        let rule = |(i, p): (usize, &(u32, u8, u32, u8))| (p.0, p.1, p.2, p.3, action(i));
        Rules::of(3, &places.iter().enumerate().map(rule).collect::<Vec<Rule>>())
    };
    for made in (0..7).map(chain) {
        rules(vectors, &made);
        for (kind, levels) in KINDS.into_iter().flat_map(|kind| [1, 3].map(|levels| (kind, levels))) {
            whole(vectors, &made, kind, levels);
        }
    }
}

/// Destinations of the lengths that begin one address, each with one source of all W bits: that of the length `matching` is
/// the source given with its last bit changed, those of the others are the source given.
pub fn chain(width: u32, lengths: &[u32], matching: Option<u32>, source: u32) -> Rules {
    let address = 0xa5a5_a5a5u64 >> (32 - width);
    let rule = |length: &u32| {
        let source = source ^ (Some(*length) == matching) as u32;
        (cut(width, address, *length), *length as u8, source, width as u8, 1 + *length as u16)
    };
    let mut rules: Vec<Rule> = lengths.iter().map(rule).collect();
    rules.sort();
    Rules::of(width, &rules)
}

/// Nested destinations where the longest have no matching source: 1, 2 and up to 33 tries are visited.
pub fn nested(vectors: &mut Vectors) {
    let address = 0xa5a5_a5a5u32;
    for matching in [None, Some(0), Some(1), Some(16), Some(31), Some(32)] {
        for source in [0, 0x1234_5678, u32::MAX] {
            let made = chain(32, &(0..=32).collect::<Vec<_>>(), matching, source);
            rules(vectors, &made);
            for (kind, levels) in [(Kind::Fixed, 32), (Kind::Variable, 32), (Kind::Variable, 9)] {
                let left = built(vectors, &made, kind, levels, needed(kind, levels, &made));
                for (dest, source) in [(address, source ^ 1), (address, source), (address, source ^ 2)] {
                    look_held(vectors, &made, &left, dest, source);
                }
                for bit in [0, 1, 16, 30, 31] {
                    look_held(vectors, &made, &left, address ^ 1 << bit, source ^ 1);
                }
            }
        }
    }
    for (width, lengths) in [(1, vec![0, 1]), (3, vec![0, 2, 3]), (8, vec![1, 2, 4, 7, 8]), (31, vec![0, 30, 31])] {
        let address = address >> (32 - width);
        for matching in lengths.clone() {
            let made = chain(width, &lengths, Some(matching), 0);
            rules(vectors, &made);
            let left = built(vectors, &made, Kind::Variable, 8, needed(Kind::Variable, 8, &made));
            print(vectors, &left);
            for (dest, source) in [(address, 1), (address, 0), (address ^ 1, 1)] {
                look_held(vectors, &made, &left, dest, source);
            }
        }
    }
}

/// Every rule list of width 1, one action a rule: nine pairs of prefixes.
pub fn every(vectors: &mut Vectors) {
    let prefixes = [(0, 0), (0, 1), (1, 1)];
    let all: Vec<Rule> = (0..9).map(|i| (prefixes[i / 3], prefixes[i % 3], i as u16 + 1)).map(rule).collect();
    for set in 0..1usize << all.len() {
        let chosen: Vec<Rule> = (0..all.len()).filter(|i| set >> i & 1 == 1).map(|i| all[i]).collect();
        let made = Rules::of(1, &chosen);
        rules(vectors, &made);
        let kind = KINDS[set % 2];
        let left = built(vectors, &made, kind, 1, needed(kind, 1, &made));
        sweep_all(vectors, &made, &left);
    }
}

fn rule((dest, source, action): ((u32, u8), (u32, u8), u16)) -> Rule {
    (dest.0, dest.1, source.0, source.1, action)
}

/// Random rules of widths 2 to 4, both kinds, with all pairs of addresses. With too few links they are refused.
pub fn small(vectors: &mut Vectors, random: &mut Random) {
    for turn in 0..144 {
        let width = [2, 3, 4, 4][turn % 4];
        let n = random.within(1, 14) as usize;
        let made = any_rules(random, width, n);
        rules(vectors, &made);
        for kind in KINDS {
            let levels = if random.one_in(8) { any_levels(random) } else { random.within(1, width as u64) as u32 };
            let mut lent = needed(kind, levels, &made);
            for length in lent.rows.iter_mut().chain([&mut lent.words, &mut lent.list]) {
                *length += random.within(0, 6) as usize;
            }
            let left = built(vectors, &made, kind, levels, lent);
            if left.record.dest.width == 0 {
                continue;
            }
            if random.one_in(2) {
                print(vectors, &left);
            }
            sweep_all(vectors, &made, &left);
        }
    }
}

/// An address at either end of a prefix, behind it, inside it, or any.
fn near(random: &mut Random, width: u32, value: u32, length: u8) -> u32 {
    let inside = ((1u64 << (width - length as u32)) - 1) as u32;
    let any = random.prefix(width, width, width).0;
    match random.within(0, 4) {
        0 => value,
        1 => value | inside,
        2 => (value | inside).wrapping_add(1),
        3 => value | any & inside,
        _ => any,
    }
}

/// Wider rules: addresses at and around both fields of them.
pub fn wide(vectors: &mut Vectors, random: &mut Random) {
    for _ in 0..42 {
        let width = if random.one_in(4) { 32 } else { random.within(5, 31) as u32 };
        let n = random.within(1, 16) as usize;
        let made = any_rules(random, width, n);
        rules(vectors, &made);
        for kind in KINDS {
            let levels = random.within(6, 32) as u32;
            let left = built(vectors, &made, kind, levels, roomy(kind, levels, &made));
            if left.record.dest.width == 0 {
                continue;
            }
            for _ in 0..8 {
                let i = random.within(0, made.count() as u64 - 1) as usize;
                let dest = near(random, width, made.dest_value[i], made.dest_length[i]);
                let source = near(random, width, made.source_value[i], made.source_length[i]);
                look_held(vectors, &made, &left, dest, source);
            }
        }
    }
}

/// The most rules: of as many destinations, of one destination, of one source, and of 32 times 32.
pub fn most() -> Vec<Rules> {
    let of = |width, rule: &dyn Fn(u32) -> Rule| Rules::of(width, &(0..RULES as u32).map(rule).collect::<Vec<_>>());
    vec![
        of(10, &|i| (i, 10, i % 2 * 512, 1, 1 + i as u16)),
        of(10, &|i| (512, 1, i, 10, DISCARD - i as u16)),
        of(11, &|i| (2 * i, 10 + (i % 2) as u8, 0, 0, 1 + i as u16)),
        of(12, &|i| (i / 32 * 128, 5, i % 32 * 128, 5, 1 + (i % 7) as u16)),
    ]
}

pub fn many(vectors: &mut Vectors) {
    for made in most() {
        assert!(made.check().is_ok() && made.count() == RULES);
        rules(vectors, &made);
        for (kind, levels) in [(Kind::Fixed, 2), (Kind::Variable, 2), (Kind::Variable, 32)] {
            let left = built(vectors, &made, kind, levels, needed(kind, levels, &made));
            for i in [0, 1, 511, 512, 1022, 1023] {
                let (dest, source) = (made.dest_value[i], made.source_value[i]);
                look_held(vectors, &made, &left, dest, source);
                look_held(vectors, &made, &left, dest, source ^ 1 << (made.width - 1));
                hold(&made, &left, dest ^ 1, source);
            }
        }
    }
}
