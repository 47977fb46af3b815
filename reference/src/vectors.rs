//! The stored inputs and expected outputs of the programs under crates/ that run in the gate. They are
//! the same on every run. What was hit is counted, and a run that hits something too seldom fails.
//! A program's input is the number of its cases and then a line for each; its output is a line for each.

mod bitmaps;
mod builds;
mod choosers;
mod links;
mod rules;
mod sheets;
mod tables;

use crate::choices::LEVELS;
use crate::lookup::Found;
use crate::random::{cut, Random};
use crate::table::{Refusal, Table, DISCARD, LINKS};
use std::collections::BTreeMap;
use std::path::Path;

/// Everything that a vector file must hit is hit at least this often.
const HITS: usize = 10;
/// A program's page has so many bytes, and its input must not fill it.
const MEBIBYTE: usize = 1 << 20;

/// One program's cases: what it reads, what it must write, and how often each thing was hit.
#[derive(Default)]
pub struct Vectors {
    input: Vec<u8>,
    output: String,
    cases: usize,
    hits: BTreeMap<String, usize>,
}

impl Vectors {
    fn case(&mut self, line: String, answer: String) {
        self.raw_case(line.as_bytes(), answer);
    }

    fn raw_case(&mut self, line: &[u8], answer: String) {
        self.cases += 1;
        self.input.extend(line);
        self.input.push(b'\n');
        self.output += &answer;
        self.output.push('\n');
    }

    fn hit(&mut self, what: &str) {
        *self.hits.entry(what.to_string()).or_insert(0) += 1;
    }

    /// Counts an answer of a call: accepted, or refused by its number.
    fn outcome<T>(&mut self, call: &str, answer: &Result<T, Refusal>) {
        match answer {
            Ok(_) => self.hit(&format!("{call} accepted")),
            Err(refusal) => self.hit(&format!("{call} refused {}", refusal.number)),
        }
    }

    /// Writes `stdin` and `stdout` of a program, which must be there, and tells on standard error what was hit. Of each of these
    /// calls all is wanted that an answer can show of links.
    fn write(&self, top: &str, program: &str, wanted: &[&str], calls: &[&str]) {
        let folder = format!("{top}/crates/{program}");
        let mut input = format!("cases {}\n", self.cases).into_bytes();
        input.extend(&self.input);
        eprintln!("{program}: {} cases, {} bytes in, {} bytes out", self.cases, input.len(), self.output.len());
        for (what, times) in &self.hits {
            eprintln!("  {what}: {times}");
        }
        let of_links = calls.iter().flat_map(|call| links::SHOWN.map(|what| format!("{call} {what}")));
        for what in wanted.iter().map(|what| what.to_string()).chain(of_links) {
            let times = self.hits.get(&what).copied().unwrap_or(0);
            assert!(times >= HITS, "{program}: {what} is hit only {times} times");
        }
        assert!(input.len() < MEBIBYTE, "{program}: its input is too long");
        assert!(Path::new(&folder).is_dir(), "there is no {folder}");
        std::fs::write(format!("{folder}/stdin"), &input).expect("stdin can be written");
        std::fs::write(format!("{folder}/stdout"), &self.output).expect("stdout can be written");
    }
}

/// A table's line: its width and number of links, the lengths of its lists, and its entries as value/length>hop, as many as
/// the longest list has; past a list's end 0 is written.
fn table_line(table: &Table) -> String {
    let (v, l, h) = (table.value.len(), table.length.len(), table.hop.len());
    let n = v.max(l).max(h);
    let mut line = format!("table width {} links {} lists {v} {l} {h} entries {n}:", table.width, table.links);
    for i in 0..n {
        let value = table.value.get(i).copied().unwrap_or(0);
        let length = table.length.get(i).copied().unwrap_or(0);
        let hop = table.hop.get(i).copied().unwrap_or(0);
        line += &format!(" {value}/{length}>{hop}");
    }
    line
}

/// How often a mark stands in a list from a row on.
fn marks<T: Copy + Into<u32>>(list: &[T], from: u32, mark: u32) -> usize {
    list.iter().skip(from as usize).filter(|x| (**x).into() == mark).count()
}

/// The programs' table lists have no more places.
const PLACES: usize = 65_600;

/// A `rising` line has its program make the table: a width, a number of links, a number of entries and the length of each.
#[derive(Clone, Copy)]
struct Rising {
    width: u32,
    links: u16,
    entries: usize,
    length: u8,
}

/// A table that its line makes, with the most links.
fn rising(width: u32, entries: usize, length: u8) -> Rising {
    Rising { width, links: LINKS, entries, length }
}

impl Rising {
    fn line(self) -> String {
        let Rising { width, links, entries, length } = self;
        format!("rising width {width} links {links} entries {entries} length {length}")
    }

    /// Entry i has value i × 2^(W - length), held at the largest of 32 bits, that length, and hop 1 + i mod 65,535.
    fn table(self) -> Table {
        let step = 1u64 << self.width.saturating_sub(self.length as u32).min(40);
        let indices = 0..self.entries as u64;
        Table {
            width: self.width,
            links: self.links,
            value: indices.clone().map(|i| (i * step).min(u32::MAX as u64) as u32).collect(),
            length: vec![self.length; self.entries],
            hop: indices.map(|i| (1 + i % 65535) as u16).collect(),
        }
    }
}

/// A `table` line that gives no entry: those of the lines before stay, and the lists have these lengths.
fn lengths_line(table: &Table) -> String {
    let (values, lengths, hops) = (table.value.len(), table.length.len(), table.hop.len());
    format!("table width {} links {} lists {values} {lengths} {hops} entries 0:", table.width, table.links)
}

/// The table of such a line. The entries before were more than the longest list has.
fn with_lengths(table: &Table, [values, lengths, hops]: [usize; 3]) -> Table {
    Table {
        width: table.width,
        links: table.links,
        value: table.value[..values].to_vec(),
        length: table.length[..lengths].to_vec(),
        hop: table.hop[..hops].to_vec(),
    }
}

/// What two `rising` lines leave: the entries of the second, and behind them those of the first.
fn over(first: Rising, second: Rising) -> Table {
    let (mut table, front) = (first.table(), second.table());
    (table.width, table.links) = (front.width, front.links);
    table.value[..front.value.len()].copy_from_slice(&front.value);
    table.length[..front.length.len()].copy_from_slice(&front.length);
    table.hop[..front.hop.len()].copy_from_slice(&front.hop);
    table
}

/// Prefixes of one address of 32 bits, one of each length from 1 on: a chain of 32 nodes.
fn chain() -> Table {
    let address = 0xaaaa_aaaa_u64;
    of(32, &(1..=32).map(|length| (cut(32, address, length), length as u8, length as u16)).collect::<Vec<_>>())
}

/// A table of 32 levels: an address of 32 bits and some prefixes of it, which make a chain of nodes, and so many others near it.
fn deep(random: &mut Random, others: usize) -> Table {
    let address = random.next();
    let whole = (cut(32, address, 32), 32);
    let mut prefixes = vec![whole];
    for length in 0..32 {
        if random.one_in(2) {
            prefixes.push((cut(32, address, length), length as u8));
        }
    }
    prefixes.extend((0..others).map(|_| random.relative(32, whole)));
    prefixes.sort();
    prefixes.dedup();
    of(32, &prefixes.into_iter().map(|(value, length)| (value, length, random.hop())).collect::<Vec<_>>())
}

/// A level limit: one of 1 to 8, or of 1 to 32.
fn any_levels(random: &mut Random) -> u32 {
    let most = if random.one_in(2) { 8 } else { LEVELS as u64 };
    random.within(1, most) as u32
}

/// What a lookup answers, and what a vector file counts it as.
fn answered(answer: Result<Found, Refusal>) -> (String, String) {
    match answer {
        Ok(Found::Match { hop, length, reads }) => {
            (format!("match {hop} length {length} reads {reads}"), "lookup match".to_string())
        }
        Ok(Found::Discard { length, reads }) => {
            (format!("discard length {length} reads {reads}"), "lookup discard".to_string())
        }
        Ok(Found::NoRoute { reads }) => (format!("none reads {reads}"), "lookup no route".to_string()),
        Err(refusal) => (format!("refused {}", refusal.number), format!("lookup refused {}", refusal.number)),
    }
}

/// The same, short: hop/length/reads, d for a discard's hop, 0/reads for no route, or r and the refusal.
fn swept(answer: Result<Found, Refusal>) -> String {
    match answer {
        Ok(Found::Match { hop, length, reads }) => format!(" {hop}/{length}/{reads}"),
        Ok(Found::Discard { length, reads }) => format!(" d/{length}/{reads}"),
        Ok(Found::NoRoute { reads }) => format!(" 0/{reads}"),
        Err(refusal) => format!(" r{}", refusal.number),
    }
}

fn refused(refusal: Refusal) -> String {
    format!("refused {} {}", refusal.number, refusal.detail)
}

fn outcome(answer: Result<(), Refusal>) -> String {
    answer.map_or_else(refused, |()| "accepted".to_string())
}

/// A table from its entries (value, length, hop), with the most links.
fn of(width: u32, entries: &[(u32, u8, u16)]) -> Table {
    Table {
        width,
        links: LINKS,
        value: entries.iter().map(|e| e.0).collect(),
        length: entries.iter().map(|e| e.1).collect(),
        hop: entries.iter().map(|e| e.2).collect(),
    }
}

/// 01's eight-prefix table.
fn eight() -> Table {
    of(7, &[(0, 1, 1), (64, 1, 2), (68, 5, 5), (80, 3, 4), (96, 2, 3), (96, 4, 6), (96, 6, 7), (96, 7, 8)])
}

/// 02's example of a discard ([4]): 10→1 and 1010→65,535.
fn corner() -> Table {
    of(4, &[(8, 2, 1), (10, 4, DISCARD)])
}

/// Discards in every place of a chain of routes: at the floor, in the middle, at the end, beside it, and at all of them.
fn discards() -> Vec<Table> {
    let chain = |hops: [u16; 4]| of(3, &[(0, 0, hops[0]), (0, 1, hops[1]), (2, 2, hops[2]), (3, 3, hops[3])]);
    let mut tables = vec![corner(), of(3, &[(0, 1, 1), (2, 2, DISCARD), (3, 3, 2)]), of(3, &[(0, 0, DISCARD)])];
    tables.extend((0..4).map(|at| chain(std::array::from_fn(|i| if i == at { DISCARD } else { i as u16 + 1 }))));
    tables.extend([chain([DISCARD; 4]), of(1, &[(0, 1, DISCARD), (1, 1, 65534)])]);
    tables
}

/// A random table of n entries exactly, as long as the width has so many.
fn full(random: &mut Random, width: u32, n: usize) -> Table {
    let mut table = random.table(width, 2 * n);
    table.value.truncate(n);
    table.length.truncate(n);
    table.hop.truncate(n);
    table
}

pub fn write_all(top: &str) {
    tables::write(top);
    choosers::write(top);
    builds::write(top);
    bitmaps::write(top);
    rules::write(top);
    sheets::write(top);
}
