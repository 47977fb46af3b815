//! The cases of the tree bitmap (02, [1]). A `table` line sets the table of the builds below it, a `rising` line
//! has one made. A `bitmap` line gives the length of scratch (filled with sevens), of the four lists of supernode rows
//! and of the hop list (filled with nines); its answer is the outcome, the record, scratch's zeros and sevens, and how many
//! nines stand in each list past the record's counts. `print` prints the rows within the counts as
//! internal/external/first child/first hop, and the hops. `look` asks one address of the last record and
//! lists, `sweep` all addresses below a number, as hop/length/reads (d for the hop of a discard, 0/reads for no
//! route), or r with the refusal. A `record` line sets a record and lists of its own. A line with another word, or with
//! a list longer than the program's room or than the rows or hops that it gives, is a bad line and changes nothing.

mod harmed;
mod linked;

use super::choosers::SCRATCH;
use super::tables::{damaged, width, FAULTS};
use super::{answered, discards, eight, links, marks, of, outcome, rising, swept, table_line, Rising, Vectors, PLACES};
use crate::bitmap::{build, lookup, nodes, walk, Bitmap, Damage, Supernodes, NODE_ROW, STRIDE};
use crate::lookup::Found;
use crate::random::Random;
use crate::table::Table;

/// The program's lists have no more places.
const ROWS: usize = 8740;
const HOPS: usize = 65_537;

const WANTED: &[&str] = &[
    "bitmap accepted",
    "bitmap refused 1",
    "bitmap refused 3",
    "bitmap refused 4",
    "bitmap refused 5",
    "bitmap refused 6",
    "bitmap refused 7",
    "refused for supernode rows",
    "refused for hop rows",
    "lookup match",
    "lookup discard",
    "lookup no route",
    "lookup refused 1",
    "lookup refused 8",
    "lookup refused 9",
    "damage RowsTooShort",
    "damage HopsTooShort",
    "damage SupernodePastEnd",
    "damage HopPastEnd",
    "damage LevelAboveWidth",
    "child number near 2^32",
    "hop number near 2^32",
    "supernode at level W",
    "bit 15 on the path",
    "bits longer than the width on the path",
    "best past its count, winner within",
    "winning hop 0 over a shorter match",
    "count 0 before rows",
    "child backwards followed",
    "damaged row off the path",
    "match of length 0",
    "match of all W bits",
    "discard of all W bits",
    "bad line",
];

/// What the last build or `record` line left.
#[derive(Clone)]
struct Left {
    record: Bitmap,
    rows: Supernodes,
}

/// Lengths of scratch, of the four lists of supernode rows and of the hop list.
#[derive(Clone, Copy)]
struct Lent {
    words: usize,
    rows: [usize; 4],
    hops: usize,
}

fn table(vectors: &mut Vectors, table: &Table) {
    vectors.case(table_line(table), "table".to_string());
}

fn risen(vectors: &mut Vectors, rising: Rising) -> Table {
    vectors.case(rising.line(), "rising".to_string());
    rising.table()
}

/// The rows that a good table needs, and its words of scratch.
fn needed(table: &Table) -> Lent {
    let nodes = nodes(table);
    let supernodes = nodes.iter().filter(|node| node.len() % STRIDE == 0).count();
    Lent { words: nodes.len() * NODE_ROW, rows: [supernodes; 4], hops: table.value.len() }
}

fn built(vectors: &mut Vectors, table: &Table, lent: Lent) -> Left {
    let Lent { words, rows: [a, b, c, d], hops: e } = lent;
    assert!(words <= SCRATCH && a.max(b).max(c).max(d) <= ROWS && e <= HOPS);
    let mut scratch = vec![7; words];
    let mut rows = Supernodes {
        internal: vec![9; a],
        external: vec![9; b],
        first_child: vec![9; c],
        first_hop: vec![9; d],
        hop_row: vec![9; e],
    };
    let (answer, record) = build(table, &mut scratch, &mut rows);
    vectors.outcome("bitmap", &answer);
    links::count_table(vectors, "bitmap", table, answer);
    if answer.is_err_and(|refusal| refusal.number == 7) {
        let short = needed(table).rows[0] > rows.shortest();
        vectors.hit(if short { "refused for supernode rows" } else { "refused for hop rows" });
    }
    let zeros = scratch.iter().filter(|x| **x == 0).count();
    let Bitmap { width, supernodes, hops } = record;
    vectors.case(
        format!("bitmap scratch {words} rows {a} {b} {c} {d} hops {e}"),
        format!(
            "{} width {width} supernodes {supernodes} hops {hops} zeros {zeros} sevens {} nines {} {} {} {} {}",
            outcome(answer),
            words - zeros,
            marks(&rows.internal, supernodes, 9),
            marks(&rows.external, supernodes, 9),
            marks(&rows.first_child, supernodes, 9),
            marks(&rows.first_hop, supernodes, 9),
            marks(&rows.hop_row, hops, 9)
        ),
    );
    Left { record, rows }
}

fn row(rows: &Supernodes, i: usize) -> String {
    let number = |list: &[u32]| list.get(i).copied().unwrap_or(0);
    let map = |list: &[u16]| list.get(i).copied().unwrap_or(0);
    let (first_child, first_hop) = (number(&rows.first_child), number(&rows.first_hop));
    format!(" {}/{}/{first_child}/{first_hop}", map(&rows.internal), map(&rows.external))
}

fn print(vectors: &mut Vectors, left: &Left) {
    let rows = (left.record.supernodes as usize).min(left.rows.shortest());
    let hops = (left.record.hops as usize).min(left.rows.hop_row.len());
    let rows: String = (0..rows).map(|i| row(&left.rows, i)).collect();
    let hops: String = left.rows.hop_row[..hops].iter().map(|hop| format!(" {hop}")).collect();
    vectors.case("print".to_string(), format!("rows{rows} hops{hops}"));
}

/// The 4 bits of an address at a level; bits past the width are 0.
fn branch(width: u32, address: u32, level: u32) -> u32 {
    ((address as u64) << 4 >> (width - level) & 15) as u32
}

/// Whether a map has a bit set on the 4-bit path that stands for an entry of more bits than are left.
fn is_too_long(map: u16, path: u32, left: u32) -> bool {
    (left + 1..STRIDE as u32).any(|level| map >> ((1 << level) - 1 + (path >> (4 - level))) & 1 == 1)
}

/// Counts winners of no bits and of as many as an address has.
fn count_length(vectors: &mut Vectors, width: u32, found: Found) {
    match found {
        Found::Match { length: 0, .. } => vectors.hit("match of length 0"),
        Found::Match { length, .. } if length as u32 == width => vectors.hit("match of all W bits"),
        Found::Discard { length, .. } if length as u32 == width => vectors.hit("discard of all W bits"),
        _ => (),
    }
}

/// Counts what an accepted lookup met on its way.
fn count_path(vectors: &mut Vectors, left: &Left, address: u32, found: Found) {
    let Left { record, rows } = left;
    let path = walk(record, rows, address).expect("accepted");
    let level = |i: usize| (i * STRIDE) as u32;
    let maps = || path.visited.iter().enumerate().map(|(i, at)| (level(i), rows.internal[*at]));
    let too_long = |(l, map)| is_too_long(map, branch(record.width, address, l), record.width - l);
    if path.visited.len() > 1 && level(path.visited.len() - 1) == record.width {
        vectors.hit("supernode at level W");
    }
    if maps().any(|(_, map)| map >> 15 == 1) {
        vectors.hit("bit 15 on the path");
    }
    if maps().any(too_long) {
        vectors.hit("bits longer than the width on the path");
    }
    if path.bests.iter().any(|best| best.place >= record.hops as u64) {
        vectors.hit("best past its count, winner within");
    }
    if found.hop() == 0 && path.bests.len() > 1 {
        vectors.hit("winning hop 0 over a shorter match");
    }
    if record.supernodes == 0 && rows.shortest() > 0 {
        vectors.hit("count 0 before rows");
    }
}

/// Counts numbers that are past the count and would begin again at 0 if sums were of 32 bits.
fn count_large(vectors: &mut Vectors, rows: &Supernodes, damage: Damage) {
    let is_large = |number: &u32| *number > u32::MAX - 16;
    if damage == Damage::SupernodePastEnd && rows.first_child.iter().any(is_large) {
        vectors.hit("child number near 2^32");
    }
    if damage == Damage::HopPastEnd && rows.first_hop.iter().any(is_large) {
        vectors.hit("hop number near 2^32");
    }
}

/// Counts what a lookup met.
fn count(vectors: &mut Vectors, left: &Left, address: u32) {
    let answer = lookup(&left.record, &left.rows, address);
    vectors.hit(&answered(answer).1);
    match answer {
        Ok(found) => {
            count_length(vectors, left.record.width, found);
            count_path(vectors, left, address, found);
        }
        Err(refusal) if refusal.number == 9 => {
            let damage = walk(&left.record, &left.rows, address).unwrap_err();
            vectors.hit(&format!("damage {damage:?}"));
            count_large(vectors, &left.rows, damage);
        }
        Err(_) => (),
    }
}

fn look(vectors: &mut Vectors, left: &Left, address: u32) {
    count(vectors, left, address);
    vectors.case(format!("look {address}"), answered(lookup(&left.record, &left.rows, address)).0);
}

fn sweep(vectors: &mut Vectors, left: &Left, below: u32) {
    let mut answers = "sweep".to_string();
    for address in 0..below {
        count(vectors, left, address);
        answers += &swept(lookup(&left.record, &left.rows, address));
    }
    vectors.case(format!("sweep {below}"), answers);
}

/// An answer of an accepted build is that of longest match, its length too, with few enough reads.
fn hold(table: &Table, left: &Left, address: u32) {
    let found = lookup(&left.record, &left.rows, address).expect("an accepted build is not damaged");
    let (hop, length) = table.answer(address);
    assert!(found == Found::of(hop, length, found.reads()) && found.reads() <= table.width / 4 + 1);
}

fn sweep_all(vectors: &mut Vectors, table: &Table, left: &Left) {
    (0..1 << table.width).for_each(|address| hold(table, left, address));
    sweep(vectors, left, 1 << table.width);
}

/// Both ends of the first entries, what lies behind them, and any addresses.
fn looks(vectors: &mut Vectors, table: &Table, left: &Left, random: &mut Random) {
    for i in 0..table.value.len().min(5) {
        let last = table.value[i] as u64 + (1u64 << (table.width - table.length[i] as u32)) - 1;
        let any = random.prefix(table.width, table.width, table.width).0;
        for address in [table.value[i], last as u32, last.wrapping_add(1) as u32, any] {
            look(vectors, left, address);
            if (address as u64) < 1 << table.width {
                hold(table, left, address);
            }
        }
    }
}

/// A table, its build in lists just long enough, its rows and all its answers.
fn whole(vectors: &mut Vectors, made: &Table) {
    table(vectors, made);
    let left = built(vectors, made, needed(made));
    print(vectors, &left);
    sweep_all(vectors, made, &left);
}

fn examples(vectors: &mut Vectors) {
    whole(vectors, &of(3, &[(4, 1, 1), (5, 3, 2)]));
    let eight = eight();
    whole(vectors, &eight);
    let left = built(vectors, &eight, Lent { words: 61, rows: [4, 5, 6, 7], hops: 12 });
    print(vectors, &left);
    for address in [97, 96, 103, 104, 71, 79, 0, 127, 128, 4294967295] {
        look(vectors, &left, address);
    }
    let lent = |words, rows, hops| Lent { words, rows, hops };
    for lent in [
        lent(56, [2, 3, 3, 3], 8),
        lent(56, [3, 2, 3, 3], 8),
        lent(56, [3, 3, 2, 3], 8),
        lent(56, [3, 3, 3, 2], 8),
        lent(56, [3, 3, 3, 3], 7),
        lent(56, [2, 3, 3, 3], 7),
        lent(59, [3, 3, 3, 3], 0),
        lent(56, [0, 0, 0, 0], 0),
        lent(55, [3, 3, 3, 3], 8),
        lent(52, [3, 3, 3, 3], 8),
        lent(55, [2, 2, 2, 2], 7),
        lent(0, [0, 0, 0, 0], 0),
    ] {
        let left = built(vectors, &eight, lent);
        print(vectors, &left);
        look(vectors, &left, 97);
    }
}

/// Little in the table, the widest addresses, and entries of all W bits for every W.
fn sparse() -> Vec<Table> {
    let mut tables = vec![
        of(32, &[(4294967295, 32, 7)]),
        of(32, &[(0, 0, 1), (0, 32, 2), (2147483648, 1, 4), (4294967294, 31, 5), (4294967295, 32, 3)]),
        of(32, &[(0, 0, 1), (0, 28, 2), (0, 29, 3), (0, 31, 4), (0, 32, 5), (1, 32, 6), (15, 32, 7), (16, 32, 8)]),
    ];
    for width in [1, 3, 4, 7, 8, 31, 32] {
        tables.push(of(width, &[]));
        tables.push(of(width, &[(0, 0, 65534)]));
    }
    for width in 1..=32 {
        let last = ((1u64 << width) - 1) as u32;
        tables.push(of(width, &[(0, width as u8, 1), (last, width as u8, 2)]));
    }
    for width in (2..=12).chain(29..=32) {
        let last = ((1u64 << width) - 1) as u32;
        tables.push(of(width, &[(0, 0, 3), (0, width as u8, 65534), (last - 1, width as u8 - 1, 4)]));
    }
    tables
}

fn edges(vectors: &mut Vectors, random: &mut Random) {
    for made in sparse() {
        table(vectors, &made);
        let left = built(vectors, &made, needed(&made));
        print(vectors, &left);
        if made.width <= 5 {
            sweep_all(vectors, &made, &left);
        }
        looks(vectors, &made, &left, random);
        for address in [0, 1, 127, 128, 2147483647, 2147483648, 4294967294, 4294967295] {
            look(vectors, &left, address);
        }
        built(vectors, &made, Lent { rows: [0; 4], hops: 0, ..needed(&made) });
        built(vectors, &made, Lent { words: 0, rows: [9, 10, 11, 12], hops: 13 });
    }
}

/// Tables with discards, and all addresses one by one.
fn discarding(vectors: &mut Vectors) {
    for made in discards() {
        whole(vectors, &made);
        let left = built(vectors, &made, needed(&made));
        (0..1 << made.width).for_each(|address| look(vectors, &left, address));
    }
}

/// Every prefix of a width, shorter ones first at each value.
fn prefixes(width: u32) -> Vec<(u32, u8)> {
    let mut prefixes: Vec<(u32, u8)> = (0..=width)
        .flat_map(|length| (0..1u32 << length).map(move |start| (start << (width - length), length as u8)))
        .collect();
    prefixes.sort();
    prefixes
}

fn numbered(width: u32, prefixes: &[(u32, u8)]) -> Table {
    of(width, &prefixes.iter().enumerate().map(|(i, p)| (p.0, p.1, 1 + i as u16)).collect::<Vec<_>>())
}

/// Every table of widths 1 and 2, one hop an entry.
fn every(vectors: &mut Vectors) {
    for width in 1..=2 {
        let all = prefixes(width);
        for set in 0..1u32 << all.len() {
            let chosen: Vec<(u32, u8)> = (0..all.len()).filter(|i| set >> i & 1 == 1).map(|i| all[i]).collect();
            whole(vectors, &numbered(width, &chosen));
        }
    }
}

/// Widths 1 to 8 with every entry, with all of the two longest lengths, and with all of a supernode's first or last level.
fn dense(vectors: &mut Vectors) {
    for width in 1..=8 {
        let all = prefixes(width);
        whole(vectors, &numbered(width, &all));
        let of_lengths = |keep: &dyn Fn(u32) -> bool| {
            numbered(width, &all.iter().copied().filter(|p| keep(p.1 as u32)).collect::<Vec<_>>())
        };
        whole(vectors, &of_lengths(&|length| length == width));
        whole(vectors, &of_lengths(&|length| length == width - 1));
        whole(vectors, &of_lengths(&|length| length % 4 == 0));
        whole(vectors, &of_lengths(&|length| length % 4 == 3));
    }
}

/// Random small tables, with all addresses. With too few links they are refused.
fn small(vectors: &mut Vectors, random: &mut Random) {
    for turn in 0..768 {
        let width = 1 + turn % 8;
        let n = random.within(0, 14) as usize;
        let made = links::any(random, width, n);
        table(vectors, &made);
        let mut lent = needed(&made);
        for length in lent.rows.iter_mut().chain([&mut lent.words, &mut lent.hops]) {
            *length += random.within(0, 6) as usize;
        }
        let left = built(vectors, &made, lent);
        print(vectors, &left);
        if left.record.width > 0 {
            sweep_all(vectors, &made, &left);
        }
    }
}

/// Wider tables: addresses at and around the entries.
fn wide(vectors: &mut Vectors, random: &mut Random) {
    for _ in 0..132 {
        let width = random.within(9, 32) as u32;
        let n = random.within(1, 14) as usize;
        let made = links::any(random, width, n);
        table(vectors, &made);
        let left = built(vectors, &made, needed(&made));
        if left.record.width == 0 {
            continue;
        }
        if random.one_in(4) {
            print(vectors, &left);
        }
        looks(vectors, &made, &left, random);
    }
}

/// Some 4,096 entries, 01's limit before 02, and one more: of up to 11 bits with few supernodes, of any lengths, and of 12 bits.
fn large(vectors: &mut Vectors, random: &mut Random) {
    let mut short: Vec<(u32, u8)> = prefixes(12).into_iter().filter(|p| p.1 < 12).collect();
    short.push((4095, 12));
    let mut drawn: Vec<(u64, (u32, u8))> = prefixes(12).into_iter().map(|prefix| (random.next(), prefix)).collect();
    drawn.sort();
    let mut any: Vec<(u32, u8)> = drawn.into_iter().take(4096).map(|(_, prefix)| prefix).collect();
    any.sort();
    for made in [numbered(12, &short), numbered(12, &any)] {
        assert!(made.value.len() == 4096);
        table(vectors, &made);
        let need = needed(&made);
        let left = built(vectors, &made, Lent { rows: [ROWS; 4], hops: HOPS, ..need });
        for address in [0, 1, 2, 15, 16, 1023, 2048, 4080, 4094, 4095, 4096] {
            look(vectors, &left, address);
        }
        sweep(vectors, &left, 512);
        built(vectors, &made, Lent { words: need.words - 1, ..need });
        let [a, b, c, d] = need.rows;
        built(vectors, &made, Lent { rows: [a, b, c - 1, d], ..need });
        built(vectors, &made, Lent { hops: 4095, ..need });
        built(vectors, &made, need);
    }
    let many = risen(vectors, rising(13, 4097, 13));
    let left = built(vectors, &many, needed(&many));
    for address in [0, 4095, 4096, 4097, 8191, 8192] {
        look(vectors, &left, address);
    }
}

/// The most entries that a table has, and one more. Those of 19 bits that share their first 3 have few enough supernodes for the
/// program's lists, those of 16 bits too many.
fn most(vectors: &mut Vectors) {
    let made = risen(vectors, rising(32, 65536, 19));
    let need = needed(&made);
    let [a, b, c, d] = need.rows;
    assert!((need.words, a) == (4 * 131_074, 8739));
    let left = built(vectors, &made, Lent { words: SCRATCH, rows: [ROWS; 4], hops: HOPS });
    let last = made.value[65535];
    for address in [0, 1, 8191, 8192, last - 1, last, last + 1, last + 8191, last + 8192, 1 << 31, u32::MAX] {
        look(vectors, &left, address);
        hold(&made, &left, address);
    }
    for lent in [
        Lent { words: need.words - 1, ..need },
        Lent { words: 0, ..need },
        Lent { rows: [a - 1, b, c, d], ..need },
        Lent { rows: [a, b - 1, c, d], ..need },
        Lent { rows: [a, b, c - 1, d], ..need },
        Lent { rows: [a, b, c, d - 1], ..need },
        Lent { hops: 65535, ..need },
    ] {
        built(vectors, &made, lent);
    }
    let left = built(vectors, &made, need);
    look(vectors, &left, last);
    let room = Lent { words: 4 * 131_071, rows: [ROWS; 4], hops: HOPS };
    let many = risen(vectors, rising(16, 65536, 16));
    built(vectors, &many, room);
    built(vectors, &many, Lent { words: room.words - 1, ..room });
    built(vectors, &many, Lent { words: 0, rows: [0; 4], hops: 0 });
    for rising in [rising(32, 65537, 19), rising(16, PLACES, 16), rising(32, 65536, 15), rising(33, 65537, 19)] {
        let made = risen(vectors, rising);
        let left = built(vectors, &made, room);
        look(vectors, &left, 0);
    }
}

/// Refusals of the build, and room that is just enough or just too little.
fn refusals(vectors: &mut Vectors, random: &mut Random) {
    for turn in 0..270 {
        let kind = turn % FAULTS;
        let width = if kind == 3 { width(random).min(31) } else { width(random) };
        let n = random.within(6, 12) as usize;
        let mut made = random.table(width, n);
        if made.value.len() < 2 {
            continue;
        }
        damaged(random, &mut made, kind);
        table(vectors, &made);
        let words = random.within(0, 60) as usize;
        let left = built(vectors, &made, Lent { words, rows: [10, 11, 12, 13], hops: 14 });
        look(vectors, &left, 0);
    }
    for turn in 0..140 {
        let width = random.within(4, 12) as u32;
        let made = random.table(width, 8);
        table(vectors, &made);
        let need = needed(&made);
        let mut lent = need;
        match turn % 7 {
            place @ 0..=3 => lent.rows[place] -= 1,
            4 => lent.hops -= 1,
            5 => lent.words -= 1,
            _ => (lent.hops, lent.rows[random.within(0, 3) as usize]) = (need.hops - 1, need.rows[0] - 1),
        }
        built(vectors, &made, lent);
        let left = built(vectors, &made, need);
        look(vectors, &left, random.within(0, (1 << width) - 1) as u32);
    }
}

/// Lines of another word, and lists longer than the program's room or than the rows or hops that are given. After
/// each the record and the rows are the ones before it.
fn bad(vectors: &mut Vectors) {
    let record = "record width 7 supernodes 0 hops 0 lists";
    let lines = [
        "lock 97".to_string(),
        "looking 97".to_string(),
        "bitmaps scratch 56 rows 3 3 3 3 hops 8".to_string(),
        "BITMAP scratch 56 rows 3 3 3 3 hops 8".to_string(),
        "97".to_string(),
        format!("bitmap scratch {} rows 3 3 3 3 hops 8", SCRATCH + 1),
        format!("bitmap scratch 56 rows {} 3 3 3 hops 8", ROWS + 1),
        format!("bitmap scratch 56 rows 3 {} 3 3 hops 8", ROWS + 1),
        format!("bitmap scratch 56 rows 3 3 {} 3 hops 8", ROWS + 1),
        format!("bitmap scratch 56 rows 3 3 3 {} hops 8", ROWS + 1),
        format!("bitmap scratch 56 rows 3 3 3 3 hops {}", HOPS + 1),
        format!("table width 7 links 0 lists 0 0 0 entries {}: 0/1>1", PLACES + 1),
        format!("rising width 7 links 0 entries {} length 7", PLACES + 1),
        "rising width 7 links 0 entries 99999999999999999999 length 7".to_string(),
        "risings width 7 links 0 entries 8 length 7".to_string(),
        "table width 7 links 0 lists 2 1 1 entries 1: 0/1>1".to_string(),
        "table width 7 links 0 lists 1 1 2 entries 1: 0/1>1".to_string(),
        format!("{record} 2 1 1 1 1 rows 1: 1/0/0/0 hops 1: 5"),
        format!("{record} 1 2 1 1 1 rows 1: 1/0/0/0 hops 1: 5"),
        format!("{record} 1 1 2 1 1 rows 1: 1/0/0/0 hops 1: 5"),
        format!("{record} 1 1 1 2 1 rows 1: 1/0/0/0 hops 1: 5"),
        format!("{record} 1 1 1 1 2 rows 1: 1/0/0/0 hops 1: 5"),
        format!("{record} 0 0 0 0 0 rows {}: hops 0:", ROWS + 1),
        format!("{record} 0 0 0 0 0 rows 0: hops {}:", HOPS + 1),
    ];
    let eight = eight();
    table(vectors, &eight);
    let left = built(vectors, &eight, needed(&eight));
    for line in lines {
        vectors.case(line, "bad line".to_string());
        vectors.hit("bad line");
        look(vectors, &left, 97);
    }
    print(vectors, &left);
    built(vectors, &eight, needed(&eight));
}

pub fn write(top: &str) {
    let mut vectors = Vectors::default();
    let mut random = Random::new(6);
    examples(&mut vectors);
    edges(&mut vectors, &mut random);
    discarding(&mut vectors);
    every(&mut vectors);
    dense(&mut vectors);
    small(&mut vectors, &mut random);
    wide(&mut vectors, &mut random);
    large(&mut vectors, &mut random);
    most(&mut vectors);
    linked::hops(&mut vectors);
    linked::most(&mut vectors);
    refusals(&mut vectors, &mut random);
    harmed::examples(&mut vectors);
    harmed::harmed(&mut vectors, &mut random);
    harmed::noise(&mut vectors, &mut random);
    bad(&mut vectors);
    vectors.write(top, "bitmap_cases", WANTED, &["bitmap"]);
}
