//! The limit of elements, the most levels, and large tables in both layouts, of 4,096 entries and of 65,536; then the most rules.

use crate::bitmaps::needed;
use crate::calls::{Lists, Most};
use crate::large_rules;
use crate::memory::Edge;
use crate::tally::Tally;
use crate::trying::{Same, Trial};
use reference::build::{Record, ELEMENTS, SCRATCH_ROW};
use reference::choices::Kind;
use reference::random::Random;
use reference::rules::{RULES, TRIE_ROW};
use reference::table::{fewest_links, Refusal, Table, DISCARD, ENTRIES, LINKS};
use reference::trie::Trie;

const SEED: u64 = 24;
const KINDS: [Kind; 2] = [Kind::Fixed, Kind::Variable];
/// Twice the limit of elements.
const ROWS: usize = 2 * ELEMENTS as usize;
/// The tables below have at most half a million nodes, and an eighth of a million supernodes.
const LARGE: Most = Most {
    entries: ENTRIES + 8,
    words: SCRATCH_ROW << 19,
    rows: ROWS,
    supernodes: 1 << 17,
    addresses: ASKED as usize + 8,
    rules: RULES + 8,
    rule_words: 0,
    rule_rows: 0,
    numbers: (RULES + 4) * TRIE_ROW,
};
/// Addresses asked of each build.
const ASKED: u64 = 1_000;

/// Tables of one size: the most entries, the level limits, and the rows of the element lists; some builds need more and are refused.
struct Size {
    entries: usize,
    levels: &'static [u32],
    rows: usize,
}

const SMALLER: Size = Size { entries: 4_096, levels: &[1, 2, 3, 5, 8, 32], rows: 1 << 19 };
const LARGEST: Size = Size { entries: ENTRIES, levels: &[1, 2, 3, 5, 8, 16, 32], rows: 1 << 20 };

fn outcome((refusal, record): &(Refusal, Record)) -> String {
    match refusal.number {
        0 => format!("E = {}", record.elements),
        number => format!("refused by {number}, detail {}", refusal.detail),
    }
}

/// The most links, or just as many as the hops need, in turn.
pub fn links(hops: &[u16], turn: u32) -> u16 {
    if turn % 2 == 0 {
        LINKS
    } else {
        fewest_links(hops)
    }
}

/// One of the first 1,000 links for that of any, so that fewer than the most are enough; a discard stays.
pub fn few(hop: u16) -> u16 {
    match hop {
        DISCARD => DISCARD,
        hop => 1 + (hop - 1) % 1_000,
    }
}

fn one_entry(bits: u32, turn: u32) -> Table {
    let hop = vec![7];
    Table { width: bits, links: links(&hop, turn), value: vec![5], length: vec![bits as u8], hop }
}

/// E at the limit is accepted where the four lists have as many rows; twice as many elements are refused.
fn limits(trial: &mut Trial) -> Same {
    let most = ELEMENTS as usize;
    let short = [most, most - 1, most, most];
    for (bits, rows) in [(24, [most; 4]), (24, [most - 1; 4]), (24, short), (25, [ROWS; 4])] {
        for (turn, kind) in KINDS.into_iter().enumerate() {
            let given = trial.given(&one_entry(bits, turn as u32), bits as usize, kind, 1, rows)?;
            println!("{kind:?}, one entry of {bits} bits, k = 1, {rows:?} rows lent: {}", outcome(&given));
        }
    }
    Ok(())
}

/// One entry of 32 bits is a chain of 32 nodes, on which every level limit tells.
fn chain(trial: &mut Trial) -> Same {
    for levels in 1..=33 {
        for kind in KINDS {
            let told = |text| format!("one entry of 32 bits {kind:?} levels {levels}: {text}");
            let given = trial.given(&one_entry(32, levels), 32, kind, levels, [1 << 17; 4]).map_err(told)?;
            println!("{kind:?}, one entry of 32 bits, k = {levels}: {}", outcome(&given));
        }
    }
    Ok(())
}

impl Size {
    fn of(&self, width: u32, mut prefixes: Vec<(u32, u8)>, random: &mut Random) -> Table {
        prefixes.sort();
        prefixes.dedup();
        prefixes.truncate(self.entries);
        Table {
            width,
            links: LINKS,
            hop: prefixes.iter().map(|_| few(random.hop())).collect(),
            value: prefixes.iter().map(|p| p.0).collect(),
            length: prefixes.iter().map(|p| p.1).collect(),
        }
    }

    /// Entries of any lengths, half of them inside others.
    fn nested(&self, random: &mut Random) -> Table {
        let nested = random.table(32, 2 * self.entries);
        self.of(32, nested.value.into_iter().zip(nested.length).collect(), random)
    }

    /// Entries of 8 to 24 bits.
    fn routes(&self, random: &mut Random) -> Table {
        let routes = (0..2 * self.entries).map(|_| random.prefix(32, 8, 24)).collect();
        self.of(32, routes, random)
    }

    /// A table in elements, both kinds, every level limit and too little scratch, then as a bitmap. Besides, a larger limit and the
    /// variable kind must not cost more.
    fn tried(&self, name: &str, table: &Table, trial: &mut Trial) -> Same {
        let (n, nodes) = (table.value.len(), Trie::of(table).size());
        println!("{name}: {n} entries of width {}, {nodes} nodes", table.width);
        let mut most = vec![u64::MAX; self.levels.len()];
        for kind in KINDS {
            let mut less = u64::MAX;
            for ((turn, levels), most) in (0..).zip(self.levels).zip(&mut most) {
                let told = |text| format!("{name}, {n} entries, {kind:?} levels {levels}: {text}");
                let table = table.with_links(links(&table.hop, turn));
                let given = trial.given(&table, nodes, kind, *levels, [self.rows; 4]).map_err(told)?;
                println!("{kind:?}, k = {levels}: {}", outcome(&given));
                let cost = given.0.detail.max(given.1.elements.into());
                if cost > less || cost > *most {
                    return Err(told(format!("costs {cost}, fewer levels {less}, the fixed kind {most}")));
                }
                (less, *most) = (cost, cost);
            }
            trial.scarce(table, nodes, kind, 1).map_err(|text| format!("{name}, {n} entries, {kind:?}: {text}"))?;
            let lacking = table.with_links(fewest_links(&table.hop) - 1);
            let told = |text| format!("{name}, {n} entries, {kind:?}, one link less: {text}");
            let given = trial.given(&lacking, nodes, kind, 1, [self.rows; 4]).map_err(told)?;
            println!("{kind:?}, {} links, one too few: {}", lacking.links, outcome(&given));
        }
        bitmaps(trial, table).map_err(|text| format!("{name}, {n} entries, as a bitmap: {text}"))
    }
}

/// Neighbours, the last addresses, of any lengths, of 8 to 24 bits, and all of 32 bits that part in the first 12.
fn smaller(trial: &mut Trial, random: &mut Random) -> Same {
    let n = SMALLER.entries as u32;
    let neighbours = SMALLER.of(13, (0..n).map(|i| (2 * i, 12)).collect(), random);
    let hosts = SMALLER.of(32, (0..n).map(|i| (u32::MAX - n + 1 + i, 32)).collect(), random);
    let parted = SMALLER.of(32, (0..n).map(|i| (i << 20, 32)).collect(), random);
    SMALLER.tried("neighbours", &neighbours, trial)?;
    SMALLER.tried("the last addresses", &hosts, trial)?;
    SMALLER.tried("nested", &SMALLER.nested(random), trial)?;
    SMALLER.tried("of 8 to 24 bits", &SMALLER.routes(random), trial)?;
    SMALLER.tried("all of 32 bits that part in the first 12", &parted, trial)
}

/// All of 16 bits, of 8 to 24, of any lengths, and a quarter as many of 32 bits, whose nodes are many.
fn largest(trial: &mut Trial, random: &mut Random) -> Same {
    let n = LARGEST.entries as u32;
    let sixteen = LARGEST.of(32, (0..n).map(|i| (i << 16, 16)).collect(), random);
    let hosts = LARGEST.of(32, (0..n / 4).map(|_| random.prefix(32, 32, 32)).collect(), random);
    LARGEST.tried("all of 16 bits", &sixteen, trial)?;
    LARGEST.tried("of 8 to 24 bits", &LARGEST.routes(random), trial)?;
    LARGEST.tried("nested", &LARGEST.nested(random), trial)?;
    LARGEST.tried("any of 32 bits", &hosts, trial)
}

/// The bitmap of the table that is lent, in lists just long enough, then with each of them in turn one shorter, then with one link
/// less than it needs.
fn bitmaps(trial: &mut Trial, table: &Table) -> Same {
    let (words, supernodes, hops) = needed(table);
    let (rows, hops) = (supernodes as usize, hops as usize);
    let mut outcomes = vec![];
    for short in 0..8 {
        let enough = links(&table.hop, short);
        let table = table.with_links(if short == 7 { enough - 1 } else { enough });
        let words = words as usize - (short == 1) as usize;
        let lengths = [2, 3, 4, 5].map(|list| rows - (short == list) as usize);
        let scratch = trial.marks(words, |mark| mark | 1);
        let lists = trial.bitmap_room(lengths, hops - (short == 6) as usize);
        outcomes.push(trial.bitmap_over(&table, scratch, lists)?);
    }
    let told: String = outcomes.iter().map(|o| format!(" {}/{}", o.number, o.detail)).collect();
    println!(
        "as a bitmap: {supernodes} supernodes; number/detail just long enough, then one short, then a link:{told}"
    );
    Ok(())
}

pub fn run() -> bool {
    let (mut lists, mut tally) = (Lists::new(&LARGE, Edge::Last), Tally::default());
    let mut trial = Trial::new(&mut lists, &mut tally, Random::new(SEED), ASKED);
    let random = &mut Random::new(SEED);
    let same = limits(&mut trial)
        .and_then(|()| chain(&mut trial))
        .and_then(|()| smaller(&mut trial, random))
        .and_then(|()| largest(&mut trial, random))
        .and_then(|()| large_rules::run(&mut trial, random));
    if let Err(text) = same {
        println!("DIFFERENCE: {text}");
        return false;
    }
    tally.print();
    println!("0 differences");
    true
}
