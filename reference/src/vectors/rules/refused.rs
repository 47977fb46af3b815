//! Builds that are refused: by each number, in order, with room that is just too little, for rules that are too many, and lines
//! that the program does not take.

use super::made::most;
use super::{built, figure, look, needed, print, roomy, rules, Lent, LIST, ROOM};
use crate::build::SCRATCH_ROW;
use crate::choices::Kind;
use crate::random::Random;
use crate::rules::{Rule, Rules, RULES, TRIE_ROW};
use crate::vectors::choosers::{KINDS, SCRATCH};
use crate::vectors::tables::width;
use crate::vectors::{any_levels, Vectors, PLACES};

/// Lists for a build that is refused before it looks at them.
const SOME: Lent = Lent { words: 150, rows: [10, 13, 11, 12], list: 17 };

/// Each of the five lists in turn one shorter, empty, or one longer.
pub fn unequal(vectors: &mut Vectors) {
    for (list, length) in (0..5).flat_map(|list| [6, 8, 0, 1, 9].map(|length| (list, length))) {
        let mut made = figure(4);
        match list {
            0 => made.dest_value.resize(length, 15),
            1 => made.dest_length.resize(length, 4),
            2 => made.source_value.resize(length, 15),
            3 => made.source_length.resize(length, 4),
            _ => made.action.resize(length, 1),
        }
        rules(vectors, &made);
        for kind in KINDS {
            built(vectors, &made, kind, 2, SOME);
        }
        // Width and level limit are tested before, whatever the lists have.
        let left = built(vectors, &made, Kind::Fixed, 33, SOME);
        print(vectors, &left);
        look(vectors, &left, 0, 0);
    }
}

/// Widths and level limits at both ends of their ranges, and past them.
pub fn ranges(vectors: &mut Vectors) {
    for width in [0, 3, 4, 32, 33, 36, 64, 260, u32::MAX] {
        let made = Rules { width, ..figure(4) };
        rules(vectors, &made);
        for (kind, levels) in KINDS.into_iter().flat_map(|kind| [0, 1, 32, 33].map(|levels| (kind, levels))) {
            built(vectors, &made, kind, levels, SOME);
        }
    }
}

/// How many kinds of fault `spoil` knows.
const FAULTS: u64 = 15;

/// One thing made wrong at a rule behind the first.
fn spoil(random: &mut Random, rules: &mut Rules, fault: u64) {
    let i = random.within(1, rules.count() as u64 - 1) as usize;
    let too_long = random.within(rules.width as u64 + 1, 255) as u8;
    let bit = 1u32.checked_shl(rules.width).unwrap_or(0);
    match fault {
        0 => rules.dest_length[i] = too_long,
        1 => rules.source_length[i] = too_long,
        2 => rules.dest_value[i] |= bit,
        3 => rules.source_value[i] |= bit,
        4 => rules.dest_value[i] |= past(rules.width, rules.dest_length[i]),
        5 => rules.source_value[i] |= past(rules.width, rules.source_length[i]),
        6 => rules.action[i] = 0,
        7 => copy(rules, i - 1, i, true),
        8 => copy(rules, i - 1, i, false),
        9 => exchange(rules, i - 1, i),
        10 => exchange_dests(rules, i - 1, i),
        11 => exchange_sources(rules, i - 1, i),
        12 => exchange(rules, 0, i),
        13 => {
            rules.action[i] = rules.action[i].min(65534);
            rules.links = rules.action[i] - 1;
        }
        // Of two wrong rules the one with the lower index is reported, whatever its fault.
        _ => {
            let other = random.within(0, rules.count() as u64 - 1) as usize;
            copy(rules, i - 1, i, true);
            rules.action[other] = 0;
        }
    }
}

/// The last bit of the width, where a prefix does not reach it.
fn past(width: u32, length: u8) -> u32 {
    ((length as u32) < width) as u32
}

/// A rule's prefixes, both or the destination alone, written over another's.
fn copy(rules: &mut Rules, from: usize, to: usize, both: bool) {
    (rules.dest_value[to], rules.dest_length[to]) = (rules.dest_value[from], rules.dest_length[from]);
    if both {
        (rules.source_value[to], rules.source_length[to]) = (rules.source_value[from], rules.source_length[from]);
    }
}

fn exchange_dests(rules: &mut Rules, i: usize, j: usize) {
    rules.dest_value.swap(i, j);
    rules.dest_length.swap(i, j);
}

fn exchange_sources(rules: &mut Rules, i: usize, j: usize) {
    rules.source_value.swap(i, j);
    rules.source_length.swap(i, j);
}

fn exchange(rules: &mut Rules, i: usize, j: usize) {
    exchange_dests(rules, i, j);
    exchange_sources(rules, i, j);
    rules.action.swap(i, j);
}

/// Rules with one fault, or two. A list that is good in spite of it is built.
pub fn faults(vectors: &mut Vectors, random: &mut Random) {
    for turn in 0..150 {
        let width = width(random);
        let mut made = random.rules(width, 12);
        if made.count() < 3 {
            continue;
        }
        spoil(random, &mut made, turn % FAULTS);
        rules(vectors, &made);
        for kind in KINDS {
            let levels = if random.one_in(8) { [0, 33, 256][random.within(0, 2) as usize] } else { any_levels(random) };
            let words = random.within(0, 180) as usize;
            built(vectors, &made, kind, levels, Lent { words, ..SOME });
        }
    }
}

/// Room just enough or just too little: one word, one row of one list, one number of the list of tries.
pub fn rooms(vectors: &mut Vectors, random: &mut Random) {
    for turn in 0..70 {
        let width = random.within(2, 6) as u32;
        let made = random.rules(width, 10);
        let kind = KINDS[turn % 2];
        let levels = random.within(1, 4) as u32;
        let need = needed(kind, levels, &made);
        if need.words == 0 {
            continue;
        }
        rules(vectors, &made);
        let mut lent = need;
        match turn / 2 % 7 {
            0 => lent.words -= 1,
            place @ 1..=4 => lent.rows[place - 1] -= 1,
            5 => lent.list -= 1,
            // Both are too short: elements are tested first.
            _ => (lent.rows[2], lent.list) = (need.rows[2] - 1, need.list - TRIE_ROW),
        }
        let left = built(vectors, &made, kind, levels, lent);
        print(vectors, &left);
        look(vectors, &left, 0, 0);
        let more = random.within(0, SCRATCH_ROW as u64 - 1) as usize;
        let part = Lent { words: lent.words + more, list: lent.list + more % TRIE_ROW, ..lent };
        built(vectors, &made, kind, levels, part);
        built(vectors, &made, kind, levels, Lent { list: need.list - 1, ..need });
        let left = built(vectors, &made, kind, levels, need);
        look(vectors, &left, 0, random.within(0, (1 << width) - 1) as u32);
    }
    for _ in 0..12 {
        // Rows enough for all but the last trie, or for all tries but the destinations'.
        let made = random.rules(4, 12);
        rules(vectors, &made);
        for kind in KINDS {
            let need = needed(kind, 2, &made);
            let few = random.within(1, need.rows[0] as u64 - 1) as usize;
            built(vectors, &made, kind, 2, Lent { rows: [few; 4], ..need });
            let few = random.within(1, need.words as u64 - 1) as usize;
            built(vectors, &made, kind, 2, Lent { words: few, ..need });
        }
    }
}

/// Rules whose tries are so large that no room is enough, alone or together; and the most rules, with one more.
pub fn large(vectors: &mut Vectors) {
    let wide = |n: u32, bits: u8| {
        Rules::of(32, &(0..n).map(|i| (i << 24, 8, 1 << (32 - bits as u32), bits, 9)).collect::<Vec<Rule>>())
    };
    for made in [wide(1, 24), wide(1, 25), wide(1, 32), wide(8, 21), wide(7, 22), wide(200, 32)] {
        rules(vectors, &made);
        for kind in KINDS {
            built(vectors, &made, kind, 1, roomy(kind, 1, &made));
            built(vectors, &made, kind, 1, Lent { list: 0, ..roomy(kind, 1, &made) });
        }
    }
    for made in most() {
        let need = needed(Kind::Fixed, 2, &made);
        rules(vectors, &made);
        built(vectors, &made, Kind::Fixed, 2, Lent { words: need.words - 1, ..need });
        built(vectors, &made, Kind::Fixed, 2, Lent { rows: need.rows.map(|list| list - 1), ..need });
        built(vectors, &made, Kind::Fixed, 2, Lent { list: need.list - 1, ..need });
    }
    let more = |n: usize| {
        let rule = |i: u32| (i, 11, 1024 * (i % 2), 1, 1 + i as u16);
        Rules::of(11, &(0..n as u32).map(rule).collect::<Vec<Rule>>())
    };
    for n in [RULES + 1, RULES + 2] {
        rules(vectors, &more(n));
        for (kind, levels) in KINDS.into_iter().flat_map(|kind| [1, 2, 32, 33].map(|levels| (kind, levels))) {
            built(vectors, &more(n), kind, levels, SOME);
        }
    }
    let mut last = more(RULES);
    last.action[RULES - 1] = 0;
    rules(vectors, &last);
    built(vectors, &last, Kind::Variable, 2, SOME);
    copy(&mut last, RULES - 2, RULES - 1, true);
    last.action[RULES - 1] = 1;
    rules(vectors, &last);
    built(vectors, &last, Kind::Variable, 2, SOME);
}

/// Lines of another word, and lists longer than the program's room or than what the line gives. After each the record and the lists
/// are the ones before it.
pub fn bad(vectors: &mut Vectors) {
    let record = "record width 4 levels 1 elements 0 floor 9 stride 0 others 0 all 0 lists";
    let build = |list: &str| format!("fixed levels 1 {list}");
    let lines = [
        "lock 1 14".to_string(),
        "looking 1 14".to_string(),
        "LOOK 1 14".to_string(),
        "14".to_string(),
        "fixes levels 1 scratch 1008 lists 44 44 44 44 list 15".to_string(),
        "ruled width 4 links 0 lists 0 0 0 0 0 rules 0:".to_string(),
        build(&format!("scratch {} lists 44 44 44 44 list 15", SCRATCH + 1)),
        build(&format!("scratch 1008 lists {} 44 44 44 list 15", ROOM + 1)),
        build(&format!("scratch 1008 lists 44 {} 44 44 list 15", ROOM + 1)),
        build(&format!("scratch 1008 lists 44 44 {} 44 list 15", ROOM + 1)),
        build(&format!("scratch 1008 lists 44 44 44 {} list 15", ROOM + 1)),
        build(&format!("scratch 1008 lists 44 44 44 44 list {}", LIST + 1)),
        format!("rules width 4 links 0 lists 0 0 0 0 0 rules {}: 0/0,0/0>1", PLACES + 1),
        "rules width 4 links 0 lists 2 1 1 1 1 rules 1: 0/0,0/0>1".to_string(),
        "rules width 4 links 0 lists 1 2 1 1 1 rules 1: 0/0,0/0>1".to_string(),
        "rules width 4 links 0 lists 1 1 2 1 1 rules 1: 0/0,0/0>1".to_string(),
        "rules width 4 links 0 lists 1 1 1 2 1 rules 1: 0/0,0/0>1".to_string(),
        "rules width 4 links 0 lists 1 1 1 1 2 rules 1: 0/0,0/0>1".to_string(),
        format!("{record} 2 1 1 1 0 rows 1: 5/3/0/0 list 0:"),
        format!("{record} 1 2 1 1 0 rows 1: 5/3/0/0 list 0:"),
        format!("{record} 1 1 2 1 0 rows 1: 5/3/0/0 list 0:"),
        format!("{record} 1 1 1 2 0 rows 1: 5/3/0/0 list 0:"),
        format!("{record} 1 1 1 1 6 rows 1: 5/3/0/0 list 5: 9 0 0 0 0"),
        format!("{record} 0 0 0 0 0 rows {}: list 0:", ROOM + 1),
        format!("{record} 0 0 0 0 0 rows 0: list {}:", LIST + 1),
    ];
    let seven = figure(4);
    rules(vectors, &seven);
    let left = built(vectors, &seven, Kind::Fixed, 1, needed(Kind::Fixed, 1, &seven));
    for line in lines {
        vectors.case(line, "bad line".to_string());
        vectors.hit("bad line");
        look(vectors, &left, 1, 14);
    }
    print(vectors, &left);
    let left = built(vectors, &seven, Kind::Variable, 1, needed(Kind::Variable, 1, &seven));
    look(vectors, &left, 1, 7);
}
