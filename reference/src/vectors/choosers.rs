//! The cases of the stride choosers. A `table` line sets the table of the lines below it and is answered
//! by `table`, a `rising` line likewise has one made; a `fixed` or `variable` line gives the level limit and the length of the scratch list, which
//! the program fills with sevens. The answer is the outcome, cost and strides, and how many zeros and how
//! many sevens scratch then holds. Where the trie is small, the answer is that of brute force.

mod linked;

use super::tables::{damaged, width, FAULTS};
use super::{
    any_levels, chain, deep, discards, eight, full, lengths_line, links, of, outcome, over, rising, table_line,
    with_lengths, Rising, Vectors, PLACES,
};
use crate::build::{chosen, SCRATCH_ROW};
use crate::choices::{
    fixed_brute, fixed_cost, fixed_lists, variable_brute, variable_choices, variable_cost, variable_count, Kind, LEVELS,
};
use crate::random::Random;
use crate::table::Table;
use crate::trie::Trie;

/// The program's scratch list has no more places.
pub const SCRATCH: usize = 600_000;
/// Brute force lists no more choices than this.
const CHOICES: u64 = 3000;

const WANTED: &[&str] = &[
    "fixed accepted",
    "fixed refused 1",
    "fixed refused 2",
    "fixed refused 3",
    "fixed refused 4",
    "fixed refused 5",
    "fixed refused 6",
    "variable accepted",
    "variable refused 1",
    "variable refused 2",
    "variable refused 3",
    "variable refused 4",
    "variable refused 5",
    "variable refused 6",
    "fixed by brute force",
    "variable by brute force",
    "fixed tie at the first stride",
    "variable tie at the root",
    "fixed strides fewer than k",
    "fixed more than 8 levels",
    "variable more than 8 levels",
    "32 strides",
];

pub fn name(kind: Kind) -> &'static str {
    match kind {
        Kind::Fixed => "fixed",
        Kind::Variable => "variable",
    }
}

pub const KINDS: [Kind; 2] = [Kind::Fixed, Kind::Variable];

/// How many different strides begin a cheapest choice, by brute force over all of them.
fn firsts(kind: Kind, trie: &Trie, k: u32) -> usize {
    let costs: Vec<(u64, u32)> = match kind {
        Kind::Fixed => fixed_lists(trie.longest, k).iter().map(|l| (fixed_cost(trie, l), l[0])).collect(),
        Kind::Variable => variable_choices(trie, "", k).iter().map(|c| (variable_cost(c), c[""])).collect(),
    };
    let least = costs.iter().map(|c| c.0).min().unwrap();
    let mut firsts: Vec<u32> = costs.iter().filter(|c| c.0 == least).map(|c| c.1).collect();
    firsts.sort();
    firsts.dedup();
    firsts.len()
}

fn is_small(kind: Kind, trie: &Trie, k: u32) -> bool {
    match kind {
        Kind::Fixed => trie.longest <= 8,
        Kind::Variable => trie.longest <= 7 && (!trie.has("") || variable_count(trie, "", k) <= CHOICES),
    }
}

/// What an accepted choice shows of its levels.
fn hit_levels(vectors: &mut Vectors, kind: Kind, levels: u32, strides: &[u8]) {
    if kind == Kind::Fixed && (strides.iter().filter(|s| **s > 0).count() as u32) < levels {
        vectors.hit("fixed strides fewer than k");
    }
    if levels > 8 {
        vectors.hit(&format!("{} more than 8 levels", name(kind)));
    }
    if strides.iter().all(|s| *s > 0) {
        vectors.hit("32 strides");
    }
}

fn choose(vectors: &mut Vectors, table: &Table, kind: Kind, levels: u32, places: usize) {
    assert!(places <= SCRATCH);
    let mut scratch = vec![7; places];
    let (answer, cost, strides) = chosen(kind, levels, table, &mut scratch);
    vectors.outcome(name(kind), &answer);
    links::count_table(vectors, name(kind), table, answer);
    if answer.is_ok() {
        let trie = Trie::of(table);
        if is_small(kind, &trie, levels) {
            let brute = match kind {
                Kind::Fixed => fixed_brute(&trie, levels),
                Kind::Variable => variable_brute(&trie, levels),
            };
            assert!((brute.cost, brute.strides()) == (cost, strides), "brute force is the recurrence");
            vectors.hit(&format!("{} by brute force", name(kind)));
            if trie.has("") && firsts(kind, &trie, levels) > 1 {
                vectors.hit(if kind == Kind::Fixed {
                    "fixed tie at the first stride"
                } else {
                    "variable tie at the root"
                });
            }
        } else {
            vectors.hit(&format!("{} by recurrence", name(kind)));
        }
        hit_levels(vectors, kind, levels, &strides);
    }
    let zeros = scratch.iter().filter(|x| **x == 0).count();
    let strides: String = strides.iter().map(|s| format!(" {s}")).collect();
    vectors.case(
        format!("{} levels {levels} scratch {places}", name(kind)),
        format!("{} cost {cost} strides{strides} zeros {zeros} sevens {}", outcome(answer), places - zeros),
    );
}

fn table(vectors: &mut Vectors, table: &Table) {
    vectors.case(table_line(table), "table".to_string());
}

fn risen(vectors: &mut Vectors, rising: Rising) -> Table {
    vectors.case(rising.line(), "rising".to_string());
    rising.table()
}

/// Scratch for the table's trie.
fn enough(table: &Table) -> usize {
    Trie::of(table).size() * SCRATCH_ROW
}

fn eight_prefixes(vectors: &mut Vectors) {
    let eight = eight();
    table(vectors, &eight);
    for kind in KINDS {
        for levels in (0..=34).chain([63, 64, 255, 256, 257, 288, 65536, 65568, 4294967295]) {
            choose(vectors, &eight, kind, levels, 720);
        }
        for places in [0, 1, 240, 648, 719, 720, 721, 791, 792, 900] {
            choose(vectors, &eight, kind, 3, places);
        }
        for levels in [9, 32, 33] {
            choose(vectors, &eight, kind, levels, 0);
        }
    }
}

/// No node, one path, costs above 16,777,216, and routes that discard.
fn edges(vectors: &mut Vectors) {
    let mut tables = vec![
        of(7, &[]),
        of(7, &[(0, 0, 1)]),
        of(1, &[(0, 1, 1)]),
        of(1, &[(0, 0, 9), (0, 1, 1), (1, 1, 65534)]),
        of(32, &[(4294967295, 32, 1)]),
        of(32, &[(0, 0, 1), (0, 32, 2), (4294967295, 32, 1)]),
        of(32, &[(0, 25, 3)]),
        chain(),
        of(2, &[(0, 2, 1), (1, 2, 2), (2, 2, 3), (3, 2, 4)]),
        of(0, &[]),
        of(33, &[]),
    ];
    tables.extend(discards());
    for made in tables {
        table(vectors, &made);
        let places = if made.check().is_ok() { enough(&made) } else { 2 * SCRATCH_ROW };
        for kind in KINDS {
            for levels in 0..=LEVELS as u32 + 1 {
                choose(vectors, &made, kind, levels, places);
            }
            choose(vectors, &made, kind, 2, 0);
            choose(vectors, &made, kind, 2, places + 7);
        }
    }
}

/// Chains of 32 nodes, and other tables of 32 levels, about the largest level limit.
fn levels(vectors: &mut Vectors, random: &mut Random) {
    for turn in 0..24 {
        let made = deep(random, if turn % 2 == 0 { 0 } else { 7 });
        table(vectors, &made);
        for kind in KINDS {
            for levels in [random.within(2, 30) as u32, 31, 32, 33] {
                choose(vectors, &made, kind, levels, enough(&made));
            }
        }
    }
}

/// Small tries against brute force; every other one is drawn until its choice has a tie.
fn small(vectors: &mut Vectors, random: &mut Random) {
    for turn in 0..330 {
        let mut drawn = 0;
        let (made, levels) = loop {
            let width = random.within(1, 7) as u32;
            let longest = width.min(6);
            let n = random.within(1, 9) as usize;
            let mut made = random.table(width, n);
            let keep: Vec<usize> = (0..made.value.len()).filter(|&i| made.length[i] as u32 <= longest).collect();
            made = of(width, &keep.iter().map(|&i| (made.value[i], made.length[i], made.hop[i])).collect::<Vec<_>>());
            let levels = random.within(1, 5) as u32;
            let trie = Trie::of(&made);
            drawn += 1;
            let tied = trie.has("")
                && is_small(Kind::Variable, &trie, levels)
                && (firsts(Kind::Variable, &trie, levels) > 1 || firsts(Kind::Fixed, &trie, levels) > 1);
            if turn % 2 == 0 || tied || drawn == 40 {
                break (made, levels);
            }
        };
        let drawn = random.links(&made.hop);
        let made = made.with_links(drawn);
        table(vectors, &made);
        for kind in KINDS {
            choose(vectors, &made, kind, levels, enough(&made));
            let more = random.within(0, SCRATCH_ROW as u64 + 6) as usize;
            choose(vectors, &made, kind, any_levels(random), enough(&made) + more);
        }
    }
}

/// Tables of every width against the recurrence, four of them large.
fn large(vectors: &mut Vectors, random: &mut Random) {
    for _ in 0..60 {
        let width = random.within(8, 32) as u32;
        let n = random.within(1, 40) as usize;
        let made = links::any(random, width, n);
        table(vectors, &made);
        for kind in KINDS {
            choose(vectors, &made, kind, random.within(1, 8) as u32, enough(&made));
            choose(vectors, &made, kind, random.within(9, 32) as u32, enough(&made));
        }
    }
    let tables = [
        of(13, &(0..4096).map(|i| (2 * i, 12, 1)).collect::<Vec<_>>()),
        of(32, &(0..4096).map(|i| (4294963200 + i, 32, 1)).collect::<Vec<_>>()),
        full(random, 32, 250),
        full(random, 12, 4096),
    ];
    for made in tables {
        table(vectors, &made);
        for levels in [1, 3, 8, 32] {
            for kind in KINDS {
                choose(vectors, &made, kind, levels, enough(&made));
            }
        }
        choose(vectors, &made, Kind::Variable, 2, enough(&made) - 1);
    }
}

/// Tables that their lines make: as many entries as scratch has rows for, all of 13 bits and below a chain of 19 nodes; one more than
/// 01's limit before 02; and the most that a table has, whose nodes are counted before any scratch is asked for.
fn most(vectors: &mut Vectors) {
    for (rising, levels) in [(rising(13, 8192, 13), 12), (rising(32, 8192, 32), 20), (rising(17, 4097, 15), 9)] {
        let made = risen(vectors, rising);
        for kind in KINDS {
            for levels in [1, levels, 32, 33] {
                choose(vectors, &made, kind, levels, enough(&made));
            }
        }
        choose(vectors, &made, Kind::Fixed, 32, enough(&made) - 1);
        choose(vectors, &made, Kind::Variable, 32, enough(&made) - 1);
    }
    for rising in [rising(16, 65536, 16), rising(32, 65536, 16), rising(32, 65536, 32), rising(32, 65535, 20)] {
        let made = risen(vectors, rising);
        for kind in KINDS {
            for (levels, places) in [(1, 0), (32, 0), (3, SCRATCH), (33, 0)] {
                choose(vectors, &made, kind, levels, places);
            }
        }
    }
}

/// The most entries and more, with faults: lists of too many entries or of unequal lengths come before any entry's fault.
fn faults(vectors: &mut Vectors) {
    for rising in [rising(16, 65537, 16), rising(32, 65536, 15), rising(33, 65537, 16), rising(16, PLACES, 16)] {
        let made = risen(vectors, rising);
        for kind in KINDS {
            for levels in [1, 32, 33] {
                choose(vectors, &made, kind, levels, 0);
            }
        }
    }
    for lists in [[65536; 3], [65537, 65536, 65536], [65536, 65537, 65536], [65536, 65536, 65537], [65537; 3]] {
        let made = with_lengths(&rising(16, PLACES, 16).table(), lists);
        vectors.case(lengths_line(&made), "table".to_string());
        for kind in KINDS {
            choose(vectors, &made, kind, 32, 0);
        }
    }
    // A fault of the last entry: too large a value, and one that lies below the entry before.
    for length in [15, 17] {
        let (first, second) = (rising(32, 65536, length), rising(32, 65535, 16));
        risen(vectors, first);
        risen(vectors, second);
        let made = over(first, second);
        vectors.case(lengths_line(&made), "table".to_string());
        for kind in KINDS {
            choose(vectors, &made, kind, 32, SCRATCH);
        }
    }
}

/// Damaged tables, bad level limits and short scratch, often two at once: the first test decides.
fn broken(vectors: &mut Vectors, random: &mut Random) {
    for turn in 0..270 {
        let kind = turn % FAULTS;
        let width = if kind == 3 { width(random).min(31) } else { width(random) };
        let n = random.within(6, 12) as usize;
        let mut made = random.table(width, n);
        if made.value.len() < 2 {
            continue;
        }
        damaged(random, &mut made, kind);
        table(vectors, &made);
        for kind in KINDS {
            let levels = if random.one_in(4) {
                [0, 33, 34, 4294967295][random.within(0, 3) as usize]
            } else {
                any_levels(random)
            };
            choose(vectors, &made, kind, levels, random.within(0, 180) as usize);
        }
    }
    for _ in 0..30 {
        let made = random.table(12, 8);
        table(vectors, &made);
        for kind in KINDS {
            let need = enough(&made) as u64;
            let places = random.within(need.saturating_sub(2 * SCRATCH_ROW as u64), need.max(1) - 1) as usize;
            choose(vectors, &made, kind, any_levels(random), places);
        }
    }
}

pub fn write(top: &str) {
    let mut vectors = Vectors::default();
    let mut random = Random::new(4);
    eight_prefixes(&mut vectors);
    edges(&mut vectors);
    levels(&mut vectors, &mut random);
    small(&mut vectors, &mut random);
    large(&mut vectors, &mut random);
    most(&mut vectors);
    faults(&mut vectors);
    linked::hops(&mut vectors);
    linked::most(&mut vectors);
    broken(&mut vectors, &mut random);
    vectors.write(top, "choose_cases", WANTED, &KINDS.map(name));
}
