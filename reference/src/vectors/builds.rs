//! The cases of build and lookup. A `table` line sets the table of the builds below it, a `rising` line has
//! one made. A `fixed` or `variable` line gives the level limit, the length of scratch (filled with sevens) and of
//! the four element lists hop, length, link and stride (the lengths filled with fives, the others with nines); its
//! answer is the outcome, the record, scratch's zeros and sevens, and how many of its marks each element list has kept
//! past row E. `print` prints rows 0 to E-1 as hop/length/link/stride. `look` asks one address of the last record and
//! lists, `sweep` all addresses below a number, as hop/length/reads (d for the hop of a discard, 0/reads for no route),
//! or r with the refusal. A `record` line sets a record and lists of its own, the rows as they are printed; of its
//! strides all but the first are the number called others. A line with another word, or with a list longer than the
//! program's room or than the rows that it gives, is a bad line and changes nothing.

mod lengths;
mod linked;

use super::choosers::{name, KINDS, SCRATCH};
use super::tables::{damaged, width, FAULTS};
use super::{
    answered, any_levels, chain, deep, discards, eight, links, marks, of, outcome, rising, swept, table_line, Rising,
    Vectors, PLACES,
};
use crate::build::{build, Elements, Record, SCRATCH_ROW};
use crate::choices::{Kind, LEVELS};
use crate::lookup::{lookup, walk, Damage, Found};
use crate::random::Random;
use crate::table::Table;
use crate::trie::Trie;

/// The program's element lists have no more places.
const ROOM: usize = 20_000;

const WANTED: &[&str] = &[
    "fixed accepted",
    "fixed refused 1",
    "fixed refused 2",
    "fixed refused 3",
    "fixed refused 4",
    "fixed refused 5",
    "fixed refused 6",
    "fixed refused 7",
    "variable accepted",
    "variable refused 1",
    "variable refused 2",
    "variable refused 3",
    "variable refused 4",
    "variable refused 5",
    "variable refused 6",
    "variable refused 7",
    "lookup match",
    "lookup discard",
    "lookup no route",
    "lookup refused 1",
    "lookup refused 2",
    "lookup refused 8",
    "lookup refused 9",
    "damage ListsTooShort",
    "damage RootStrideZero",
    "damage StrideZero",
    "damage StrideTooLong",
    "damage RowPastEnd",
    "damage BlockAfterLast",
    "damaged row off the path",
    "link backwards followed",
    "32 reads",
    "bad line",
    "fixed refused for the length list alone",
    "variable refused for the length list alone",
    "damage in the length list alone",
    "length list alone longer",
    "match by the floor",
    "discard by the floor",
    "length 0 of a row taken as found",
    "length above 32 taken as found",
    "length beside hop 0 passed by",
];

/// What the last build or `record` line left.
#[derive(Clone)]
struct Left {
    record: Record,
    rows: Elements,
}

fn table(vectors: &mut Vectors, table: &Table) {
    vectors.case(table_line(table), "table".to_string());
}

fn risen(vectors: &mut Vectors, rising: Rising) -> Table {
    vectors.case(rising.line(), "rising".to_string());
    rising.table()
}

/// Lengths of scratch, and of the hop, length, link and stride list.
type Lent = (usize, [usize; 4]);

fn built(vectors: &mut Vectors, table: &Table, kind: Kind, levels: u32, lent: Lent) -> Left {
    let (places, [hop, length, link, stride]) = lent;
    assert!(places <= SCRATCH && lent.1.iter().all(|list| *list <= ROOM));
    let mut scratch = vec![7; places];
    let mut rows =
        Elements { hop: vec![9; hop], length: vec![5; length], link: vec![9; link], stride: vec![9; stride] };
    let (answer, record) = build(kind, levels, table, &mut scratch, &mut rows);
    vectors.outcome(name(kind), &answer);
    links::count_table(vectors, name(kind), table, answer);
    lengths::count_build(vectors, kind, answer, &rows);
    let zeros = scratch.iter().filter(|x| **x == 0).count();
    let strides: String = record.strides.iter().map(|s| format!(" {s}")).collect();
    vectors.case(
        format!("{} levels {levels} scratch {places} lists {hop} {length} {link} {stride}", name(kind)),
        format!(
            "{} width {} levels {} elements {} floor {} strides{strides} zeros {zeros} sevens {} {}",
            outcome(answer),
            record.width,
            record.levels,
            record.elements,
            record.floor,
            places - zeros,
            kept(&rows, record.elements)
        ),
    );
    Left { record, rows }
}

/// The marks that stand in the lists past row E.
fn kept(rows: &Elements, e: u32) -> String {
    let (hops, lengths) = (marks(&rows.hop, e, 9), marks(&rows.length, e, 5));
    format!("kept {hops} {lengths} {} {}", marks(&rows.link, e, 9), marks(&rows.stride, e, 9))
}

fn rows(vectors: &mut Vectors, left: &Left) {
    let Elements { hop, length, link, stride } = &left.rows;
    let rows: String = (0..left.record.elements as usize)
        .map(|i| format!(" {}/{}/{}/{}", hop[i], length[i], link[i], stride[i]))
        .collect();
    vectors.case("print".to_string(), format!("rows{rows}"));
}

/// Counts what a lookup met.
fn count(vectors: &mut Vectors, left: &Left, address: u32) {
    let answer = lookup(&left.record, &left.rows, address);
    if answer.is_ok_and(|found| found.reads() == 32) {
        vectors.hit("32 reads");
    }
    vectors.hit(&answered(answer).1);
    lengths::count_lookup(vectors, left, address);
    if answer.is_err_and(|refusal| refusal.number == 9) {
        let damage: Damage = walk(&left.record, &left.rows, address).unwrap_err();
        vectors.hit(&format!("damage {damage:?}"));
    }
}

fn look(vectors: &mut Vectors, left: &Left, address: u32) {
    count(vectors, left, address);
    vectors.case(format!("look {address}"), answered(lookup(&left.record, &left.rows, address)).0);
}

fn sweep(vectors: &mut Vectors, left: &Left, below: u32) {
    let mut answers = "sweep".to_string();
    for address in 0..below {
        count(vectors, left, address);
        answers += &swept(lookup(&left.record, &left.rows, address));
    }
    vectors.case(format!("sweep {below}"), answers);
}

/// An answer of an accepted build is that of longest match, its length too, with few enough reads.
fn hold(table: &Table, left: &Left, address: u32) {
    let found = lookup(&left.record, &left.rows, address).expect("an accepted build is not damaged");
    let (hop, length) = table.answer(address);
    assert!(found == Found::of(hop, length, found.reads()) && found.reads() <= left.record.levels);
}

/// All addresses of an accepted build, held to longest match besides.
fn sweep_all(vectors: &mut Vectors, table: &Table, left: &Left) {
    (0..1 << table.width).for_each(|address| hold(table, left, address));
    sweep(vectors, left, 1 << table.width);
}

/// A record and lists of its own; `others` stands in every place of its strides but the first.
fn record(vectors: &mut Vectors, left: &mut Left, others: u8) {
    for s in &mut left.record.strides[1..] {
        *s = others;
    }
    let (r, e) = (&left.record, &left.rows);
    let lists = [e.hop.len(), e.length.len(), e.link.len(), e.stride.len()];
    let n = lists.into_iter().max().unwrap_or(0);
    let listed: String = lists.iter().map(|list| format!(" {list}")).collect();
    let mut line = format!(
        "record width {} levels {} elements {} floor {} stride {} others {others} lists{listed} rows {n}:",
        r.width, r.levels, r.elements, r.floor, r.strides[0],
    );
    for i in 0..n {
        let hop = e.hop.get(i).copied().unwrap_or(0);
        let length = e.length.get(i).copied().unwrap_or(0);
        let link = e.link.get(i).copied().unwrap_or(0);
        let stride = e.stride.get(i).copied().unwrap_or(0);
        line += &format!(" {hop}/{length}/{link}/{stride}");
    }
    vectors.case(line, "record".to_string());
}

fn nodes(table: &Table) -> usize {
    Trie::of(table).size() * SCRATCH_ROW
}

fn examples(vectors: &mut Vectors) {
    let small = of(3, &[(4, 1, 1), (5, 3, 2)]);
    table(vectors, &small);
    let left = built(vectors, &small, Kind::Variable, 2, (216, [6; 4]));
    rows(vectors, &left);
    sweep_all(vectors, &small, &left);
    let eight = eight();
    table(vectors, &eight);
    let left = built(vectors, &eight, Kind::Variable, 2, (720, [26; 4]));
    rows(vectors, &left);
    for address in [97, 96, 103, 104, 71, 79, 0, 127, 128, 4294967295] {
        look(vectors, &left, address);
    }
    for kind in KINDS {
        for levels in (0..=9).chain([31, 32, 33, 4294967295]) {
            let left = built(vectors, &eight, kind, levels, (720, [128, 131, 130, 129]));
            rows(vectors, &left);
            if left.record.width > 0 {
                sweep_all(vectors, &eight, &left);
            }
        }
        for lent in [
            (720, [25, 26, 26, 26]),
            (720, [26, 25, 26, 26]),
            (720, [26, 26, 25, 26]),
            (720, [26, 26, 26, 25]),
            (720, [26, 26, 26, 27]),
            (648, [26; 4]),
            (719, [26; 4]),
            (0, [0; 4]),
        ] {
            built(vectors, &eight, kind, 2, lent);
        }
    }
}

fn edges(vectors: &mut Vectors) {
    let tables = [
        of(7, &[]),
        of(7, &[(0, 0, 65534)]),
        of(1, &[(0, 0, 9), (0, 1, 1), (1, 1, 65534)]),
        of(32, &[(4294967295, 32, 7)]),
        of(32, &[(0, 0, 1), (0, 32, 2), (2147483648, 1, 4), (4294967294, 31, 5), (4294967295, 32, 3)]),
        of(32, &[(0, 24, 3)]),
        of(32, &[(0, 25, 3)]),
    ];
    for made in tables {
        table(vectors, &made);
        for kind in KINDS {
            for levels in (1..=9).chain([16, 31, 32]) {
                let left = built(vectors, &made, kind, levels, (nodes(&made), [4096; 4]));
                if left.record.width == 0 {
                    continue;
                }
                for address in [0, 1, 127, 128, 2147483647, 2147483648, 4294967294, 4294967295] {
                    look(vectors, &left, address);
                }
            }
        }
        built(vectors, &made, Kind::Variable, 1, (nodes(&made), [0; 4]));
    }
}

/// Tables with discards, by both kinds, with 1 to W + 1 levels and the most, and all addresses; and 02's example in a record of its own, with the
/// hops about that of a discard for its floor and for a row.
fn discarding(vectors: &mut Vectors) {
    for made in discards() {
        table(vectors, &made);
        for kind in KINDS {
            for levels in (1..=made.width + 1).chain([31, 32]) {
                let left = built(vectors, &made, kind, levels, (nodes(&made), [16; 4]));
                rows(vectors, &left);
                sweep_all(vectors, &made, &left);
                for address in 0..1 << made.width {
                    look(vectors, &left, address);
                }
            }
        }
    }
    for edge in [0, 1, 65533, 65534, 65535] {
        let rows = Elements {
            hop: vec![0, 0, 1, 0, 0, edge, 65535, 0],
            length: vec![0, 0, 2, 0, 0, 4, 4, 0],
            link: vec![0, 0, 4, 0, 0, 0, 0, 0],
            stride: vec![0, 0, 2, 0, 0, 0, 0, 0],
        };
        for elements in [0, 8] {
            let mut strides = [0; LEVELS];
            strides[0] = if elements == 0 { 0 } else { 2 };
            let record_of = Record { width: 4, levels: 2, elements, floor: edge, strides };
            let mut left = Left { record: record_of, rows: rows.clone() };
            record(vectors, &mut left, 0);
            (0..17).for_each(|address| look(vectors, &left, address));
        }
    }
}

/// Chains of 32 nodes, and other tables of 32 levels, about the largest level limit: at each level an address leaves the chain.
fn levels(vectors: &mut Vectors, random: &mut Random) {
    let tables = [chain(), deep(random, 0), deep(random, 0), deep(random, 6), deep(random, 6)];
    for made in tables {
        table(vectors, &made);
        let last = made.value[(0..made.value.len()).find(|&i| made.length[i] == 32).expect("one of 32 bits")];
        for kind in KINDS {
            for levels in [31, 32, 33] {
                let left = built(vectors, &made, kind, levels, (nodes(&made), [ROOM; 4]));
                if left.record.width == 0 {
                    continue;
                }
                for address in (0..32).map(|bit| last ^ 1 << bit).chain([last]) {
                    look(vectors, &left, address);
                    hold(&made, &left, address);
                }
            }
        }
    }
}

/// Rows of one bit that call for themselves after a 0 and end after a 1: as many reads as the address has leading zeros, and one.
fn loops(vectors: &mut Vectors) {
    let rows =
        Elements { hop: vec![0, 7, 0, 8], length: vec![4, 1, 5, 2], link: vec![2, 0, 2, 0], stride: vec![1, 0, 1, 0] };
    for levels in [1, 8, 9, 31, 32, 33] {
        let record_of = Record { width: 32, levels, elements: 4, floor: 3, strides: [1; LEVELS] };
        let mut left = Left { record: record_of, rows: rows.clone() };
        record(vectors, &mut left, 1);
        for address in (0..32).map(|bit| 1u32 << bit).chain([0, 3, u32::MAX]) {
            look(vectors, &left, address);
        }
        count_paths(vectors, &left, &left, 4);
    }
}

/// Small tables with every k to 8 and one above, and all addresses; the rows of one k of each kind. With too few links one
/// build of each kind is refused.
fn small(vectors: &mut Vectors, random: &mut Random) {
    for _ in 0..384 {
        let width = if random.one_in(6) { random.within(5, 6) } else { random.within(1, 4) } as u32;
        let n = random.within(0, 8) as usize;
        let made = links::any(random, width, n);
        table(vectors, &made);
        if made.check().is_err() {
            KINDS.into_iter().for_each(|kind| drop(built(vectors, &made, kind, 3, (nodes(&made), [64; 4]))));
            continue;
        }
        for kind in KINDS {
            let shown = random.within(1, width as u64) as u32;
            for levels in (1..=8).chain([random.within(9, 32) as u32]) {
                // More levels than bits add no choice: no room is drawn for them.
                let more = if levels > width + 1 { 0 } else { random.within(0, 9) as usize };
                let room = 64 + more;
                let left = built(vectors, &made, kind, levels, (nodes(&made) + 5, [room, 77, room + 1, 80]));
                if levels == shown {
                    rows(vectors, &left);
                }
                sweep_all(vectors, &made, &left);
            }
        }
    }
}

/// Wider tables: addresses at and around the entries.
fn wide(vectors: &mut Vectors, random: &mut Random) {
    for _ in 0..72 {
        let width = random.within(7, 32) as u32;
        let n = random.within(1, 12) as usize;
        let made = links::any(random, width, n);
        table(vectors, &made);
        for kind in KINDS {
            let levels = if random.one_in(2) { random.within(3, 8) } else { random.within(3, 32) } as u32;
            let left = built(vectors, &made, kind, levels, (nodes(&made), [ROOM; 4]));
            if left.record.width == 0 {
                continue;
            }
            for i in 0..made.value.len().min(5) {
                let last = made.value[i] as u64 + (1u64 << (width - made.length[i] as u32)) - 1;
                for address in
                    [made.value[i], last as u32, last.wrapping_add(1) as u32, random.prefix(width, width, width).0]
                {
                    look(vectors, &left, address);
                    if (address as u64) < 1 << width {
                        hold(&made, &left, address);
                    }
                }
            }
        }
    }
    let made = of(13, &(0..4096).map(|i| (2 * i, 12, 1 + (i % 1000) as u16)).collect::<Vec<_>>());
    table(vectors, &made);
    for kind in KINDS {
        let left = built(vectors, &made, kind, 3, (nodes(&made), [ROOM; 4]));
        for address in [0, 1, 2, 4095, 4096, 8190, 8191, 8192] {
            look(vectors, &left, address);
        }
    }
}

/// Tables that their lines make: as many entries as scratch has rows for, and the most that a table has.
fn most(vectors: &mut Vectors) {
    let made = risen(vectors, rising(14, 8192, 13));
    for kind in KINDS {
        for levels in [1, 4, 32] {
            let left = built(vectors, &made, kind, levels, (nodes(&made), [ROOM; 4]));
            for address in [0, 1, 2, 8191, 8192, 16382, 16383, 16384] {
                look(vectors, &left, address);
            }
            let e = left.record.elements as usize;
            built(vectors, &made, kind, levels, (nodes(&made) + SCRATCH_ROW - 1, [e, e, e - 1, e]));
            built(vectors, &made, kind, levels, (nodes(&made), [e, e - 1, e, e]));
        }
        built(vectors, &made, kind, 32, (nodes(&made) - 1, [ROOM; 4]));
    }
    for rising in [rising(16, 65536, 16), rising(32, 65536, 20), rising(16, 65537, 16), rising(32, 65536, 15)] {
        let made = risen(vectors, rising);
        for kind in KINDS {
            for (levels, places) in [(32, 0), (3, SCRATCH), (33, 0)] {
                let left = built(vectors, &made, kind, levels, (places, [10, 13, 11, 12]));
                look(vectors, &left, 0);
            }
        }
    }
}

/// Refusals of the build.
fn refusals(vectors: &mut Vectors, random: &mut Random) {
    for turn in 0..180 {
        let kind = turn % FAULTS;
        let width = if kind == 3 { width(random).min(31) } else { width(random) };
        let n = random.within(6, 12) as usize;
        let mut made = random.table(width, n);
        if made.value.len() < 2 {
            continue;
        }
        damaged(random, &mut made, kind);
        table(vectors, &made);
        for kind in KINDS {
            let levels =
                if random.one_in(4) { [0, 33, 4294967295][random.within(0, 2) as usize] } else { any_levels(random) };
            let places = random.within(0, 180) as usize;
            built(vectors, &made, kind, levels, (places, [10, 13, 11, 12]));
        }
    }
}

/// Room that is just enough or just too little.
fn rooms(vectors: &mut Vectors, random: &mut Random) {
    for _ in 0..60 {
        let made = random.table(6, 6);
        if !Trie::of(&made).has("") {
            continue;
        }
        table(vectors, &made);
        for kind in KINDS {
            let levels = random.within(1, 4) as u32;
            let left = built(vectors, &made, kind, levels, (nodes(&made), [64; 4]));
            let e = left.record.elements as usize;
            let lent = match random.within(0, 4) {
                0 => (nodes(&made), [e - 1, e, e, e + 2]),
                1 => (nodes(&made), [e + 2, e, e - 1, e]),
                2 => (nodes(&made) + SCRATCH_ROW - 1, [e, e + 3, e + 2, e - 1]),
                3 => (nodes(&made), [e, e - 1, e + 2, e]),
                _ => (nodes(&made) - 1, [e; 4]),
            };
            built(vectors, &made, kind, levels, lent);
            built(vectors, &made, kind, levels, (nodes(&made), [e; 4]));
        }
    }
}

/// One thing changed in a good record or its rows.
fn harm(random: &mut Random, left: &mut Left, kind: u64) {
    let n = left.rows.hop.len() as u64;
    let i = random.within(0, n - 1) as usize;
    let linked: Vec<usize> = (0..n as usize).filter(|&i| left.rows.link[i] > 0).collect();
    let row = if linked.is_empty() { i } else { linked[random.within(0, linked.len() as u64 - 1) as usize] };
    match kind {
        0 => left.record.elements += random.within(1, 3) as u32,
        1 if random.one_in(2) => drop(left.rows.hop.pop()),
        1 => drop(left.rows.link.pop()),
        2 => drop(left.rows.stride.pop()),
        3 => left.record.strides[0] = 0,
        4 => left.rows.stride[row] = 0,
        5 => left.rows.stride[row] = random.within(1, 255) as u8,
        6 => left.record.strides[0] = random.within(1, 255) as u8,
        7 => left.record.elements = random.within(0, n) as u32,
        8 => {
            left.rows.link[row] =
                [n as u32, n as u32 + 1, 4294967295, left.record.elements][random.within(0, 3) as usize]
        }
        9 => left.record.levels = random.within(1, 2) as u32,
        10 => {
            left.rows.link[i] = random.within(1, n) as u32;
            left.rows.stride[i] = random.within(1, 3) as u8;
        }
        // Backwards, and by one bit, so that often enough are left.
        11 => (left.rows.link[row], left.rows.stride[row]) = (random.within(row.min(1) as u64, row as u64) as u32, 1),
        12 => left.rows.hop[i] = [0, 1, 65535][random.within(0, 2) as usize],
        13 => left.record.floor = [0, 65535, 77][random.within(0, 2) as usize],
        14 => left.record.width = [0, 33, 256, 4294967295, left.record.width + 1][random.within(0, 4) as usize],
        15 => left.record.levels = [0, 33, 4294967295][random.within(0, 2) as usize],
        16 => left.rows.stride[i] = random.within(0, 255) as u8,
        17 => drop(left.rows.length.pop()),
        18 => left.rows.length[i] = [0, 33, 255, random.next() as u8][random.within(0, 3) as usize],
        19 => left.rows.hop[i] = 0,
        20 => left.rows.length.fill(random.next() as u8),
        _ => left.record.elements = left.record.elements.wrapping_sub(1),
    }
}

const HARMS: u64 = 22;

fn harmed(vectors: &mut Vectors, random: &mut Random) {
    for turn in 0..528 {
        let width = random.within(2, 5) as u32;
        let n = random.within(2, 8) as usize;
        let made = random.table(width, n);
        let kind = KINDS[turn as usize % 2];
        let levels = random.within(1, 3) as u32;
        let mut elements = Elements { hop: vec![0; 64], length: vec![0; 64], link: vec![0; 64], stride: vec![0; 64] };
        let mut scratch = vec![0; nodes(&made)];
        let (_, good) = build(kind, levels, &made, &mut scratch, &mut elements);
        let e = good.elements as usize;
        if e == 0 {
            continue;
        }
        elements.hop.truncate(e);
        elements.length.truncate(e);
        elements.link.truncate(e);
        elements.stride.truncate(e);
        let mut left = Left { record: good, rows: elements };
        let sound = left.clone();
        harm(random, &mut left, turn % HARMS);
        if random.one_in(3) && left.rows.shortest() == e {
            harm(random, &mut left, random_kind(turn));
        }
        let others = random.within(0, 255) as u8;
        record(vectors, &mut left, others);
        let below = 1u32 << width;
        sweep(vectors, &left, below);
        for address in [below - 1, below, 4294967295] {
            look(vectors, &left, address);
        }
        count_paths(vectors, &left, &sound, below);
    }
}

/// Counts records in which an accepted walk follows a link backwards, or passes by a changed row.
fn count_paths(vectors: &mut Vectors, left: &Left, sound: &Left, below: u32) {
    let accepted = |address| lookup(&left.record, &left.rows, address).is_ok();
    let paths: Vec<Vec<usize>> =
        (0..below).filter(|a| accepted(*a)).map(|a| walk(&left.record, &left.rows, a).unwrap().rows).collect();
    let back = |path: &Vec<usize>| path.windows(2).any(|w| (left.rows.link[w[0]] as usize) <= w[0]);
    if paths.iter().any(back) {
        vectors.hit("link backwards followed");
    }
    let changed: Vec<usize> = (0..left.rows.shortest())
        .filter(|&i| {
            let (a, b) = (&left.rows, &sound.rows);
            (a.hop[i], a.length[i], a.link[i], a.stride[i]) != (b.hop[i], b.length[i], b.link[i], b.stride[i])
        })
        .collect();
    if paths.iter().any(|path| changed.iter().any(|i| !path.contains(i))) {
        vectors.hit("damaged row off the path");
    }
}

/// Another kind of harm than the turn's own.
fn random_kind(turn: u64) -> u64 {
    (turn * 7 + 5) % HARMS
}

/// Rows and records of any numbers.
fn noise(vectors: &mut Vectors, random: &mut Random) {
    for _ in 0..150 {
        let n = random.within(1, 24) as usize;
        let width = random.within(1, 5) as u32;
        let mut left = Left { record: Record::default(), rows: Elements::default() };
        for _ in 0..n {
            left.rows.hop.push(if random.one_in(2) { 0 } else { random.next() as u16 });
            left.rows.length.push(if random.one_in(4) { 0 } else { random.next() as u8 });
            left.rows.link.push(if random.one_in(2) { 0 } else { random.within(0, n as u64) as u32 });
            left.rows.stride.push(random.within(0, 3) as u8);
        }
        left.record = Record {
            width,
            levels: any_levels(random),
            elements: random.within(n as u64 / 2, n as u64) as u32,
            floor: random.within(0, 3) as u16,
            strides: [random.within(0, 4) as u8; LEVELS],
        };
        let others = random.within(0, 9) as u8;
        record(vectors, &mut left, others);
        sweep(vectors, &left, 1 << width);
    }
}

/// Lines of another word, and lists longer than the program's room or than the rows that are given. After each
/// the record and the rows are the ones before it.
fn bad(vectors: &mut Vectors) {
    let record = "record width 7 levels 2 elements 0 floor 9 stride 0 others 0 lists";
    let lines = [
        "lock 97".to_string(),
        "looking 97".to_string(),
        "loo 97".to_string(),
        "LOOK 97".to_string(),
        "97".to_string(),
        "fixes levels 2 scratch 720 lists 26 26 26 26".to_string(),
        format!("fixed levels 2 scratch {} lists 26 26 26 26", SCRATCH + 1),
        format!("variable levels 2 scratch 720 lists {} 26 26 26", ROOM + 1),
        format!("variable levels 2 scratch 720 lists 26 {} 26 26", ROOM + 1),
        format!("variable levels 2 scratch 720 lists 26 26 {} 26", ROOM + 1),
        format!("variable levels 2 scratch 720 lists 26 26 26 {}", ROOM + 1),
        format!("table width 7 links 0 lists 0 0 0 entries {}: 0/1>1", PLACES + 1),
        format!("rising width 7 links 0 entries {} length 7", PLACES + 1),
        "rising width 7 links 0 entries 99999999999999999999 length 7".to_string(),
        "risings width 7 links 0 entries 8 length 7".to_string(),
        "table width 7 links 0 lists 2 1 1 entries 1: 0/1>1".to_string(),
        "table width 7 links 0 lists 1 1 2 entries 1: 0/1>1".to_string(),
        format!("{record} 0 0 0 0 rows {}:", ROOM + 1),
        format!("{record} 1 0 0 0 rows 0:"),
        format!("{record} 0 1 0 0 rows 0:"),
        format!("{record} 0 0 1 0 rows 0:"),
        format!("{record} 0 0 0 1 rows 0:"),
        format!("{record} 1 2 1 1 rows 1: 5/3/0/0"),
    ];
    let eight = eight();
    table(vectors, &eight);
    let left = built(vectors, &eight, Kind::Variable, 2, (720, [26; 4]));
    for line in lines {
        vectors.case(line, "bad line".to_string());
        vectors.hit("bad line");
        look(vectors, &left, 97);
    }
    built(vectors, &eight, Kind::Variable, 2, (720, [26; 4]));
}

pub fn write(top: &str) {
    let mut vectors = Vectors::default();
    let mut random = Random::new(5);
    examples(&mut vectors);
    edges(&mut vectors);
    discarding(&mut vectors);
    lengths::lists(&mut vectors);
    lengths::damaged(&mut vectors);
    levels(&mut vectors, &mut random);
    loops(&mut vectors);
    small(&mut vectors, &mut random);
    wide(&mut vectors, &mut random);
    most(&mut vectors);
    linked::hops(&mut vectors);
    linked::most(&mut vectors);
    refusals(&mut vectors, &mut random);
    rooms(&mut vectors, &mut random);
    harmed(&mut vectors, &mut random);
    noise(&mut vectors, &mut random);
    bad(&mut vectors);
    vectors.write(top, "build_cases", WANTED, &KINDS.map(name));
}
