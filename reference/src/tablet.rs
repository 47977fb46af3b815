//! The tablet program (01, "The tablet program"): the text, tested line by line, the build over what
//! the program lends, then all addresses, and the report.

use crate::build::{build, Elements, SCRATCH_ROW};
use crate::choices::Kind;
use crate::lookup::lookup;
use crate::table::{refuse, Refusal, Table};

/// The program lends 112 scratch rows (02; 01: 320) and 8,192 elements.
pub const SCRATCH_ROWS: usize = 112;
const ELEMENTS: usize = 8192;
/// Entries and queries are 0 to 64.
const COUNT: u32 = 64;
/// Bits are 0 to 32 binary digits, addresses 1 to 32.
const DIGITS: usize = 32;

struct Sheet {
    width: u32,
    kind: Kind,
    levels: u32,
    links: u16,
    bits: Vec<String>,
    hops: Vec<u16>,
    addresses: Vec<String>,
}

/// What is left of the text, and the number of the next line, from 1.
struct Lines<'a> {
    rest: &'a [u8],
    line: u64,
}

impl<'a> Lines<'a> {
    /// The next complete line's value under its key, as `read` takes it. Anything else is 11 at this
    /// line; an early end is the line after the last complete one, which is this line too.
    fn value<T>(&mut self, key: &str, read: impl Fn(&'a str) -> Option<T>) -> Result<T, Refusal> {
        let bad = Refusal { number: 11, detail: self.line };
        let end = self.rest.iter().position(|b| *b == b'\n').ok_or(bad)?;
        let line = std::str::from_utf8(&self.rest[..end]).map_err(|_| bad)?;
        let value = line.strip_prefix(key).and_then(|l| l.strip_prefix('=')).ok_or(bad)?;
        let value = read(value).ok_or(bad)?;
        self.rest = &self.rest[end + 1..];
        self.line += 1;
        Ok(value)
    }
}

/// Decimal without leading zeros, at most five digits.
fn number(text: &str) -> Option<u32> {
    let good = (1..=5).contains(&text.len()) && text.bytes().all(|b| b.is_ascii_digit());
    if !good || (text.len() > 1 && text.starts_with('0')) {
        return None;
    }
    text.parse().ok()
}

fn count(text: &str) -> Option<u32> {
    number(text).filter(|n| *n <= COUNT)
}

/// A hop, or the number of links (02, [7]): above 65,535 is 11.
fn at_most_65535(text: &str) -> Option<u16> {
    number(text).filter(|n| *n <= 65535).map(|n| n as u16)
}

fn kind(text: &str) -> Option<Kind> {
    match text {
        "fst" => Some(Kind::Fixed),
        "vst" => Some(Kind::Variable),
        _ => None,
    }
}

fn binary(text: &str, least: usize) -> Option<String> {
    let good = (least..=DIGITS).contains(&text.len()) && text.bytes().all(|b| b == b'0' || b == b'1');
    good.then(|| text.to_string())
}

fn parse(text: &[u8]) -> Result<Sheet, Refusal> {
    let mut lines = Lines { rest: text, line: 1 };
    let width = lines.value("width", number)?;
    let kind = lines.value("kind", kind)?;
    let levels = lines.value("levels", number)?;
    let links = lines.value("links", at_most_65535)?;
    let (mut bits, mut hops, mut addresses) = (vec![], vec![], vec![]);
    for _ in 0..lines.value("entries", count)? {
        bits.push(lines.value("bits", |t| binary(t, 0))?);
        hops.push(lines.value("hop", at_most_65535)?);
    }
    for _ in 0..lines.value("queries", count)? {
        addresses.push(lines.value("address", |t| binary(t, 1))?);
    }
    if !lines.rest.is_empty() {
        return refuse(11, lines.line);
    }
    Ok(Sheet { width, kind, levels, links, bits, hops, addresses })
}

/// The number that a string of binary digits writes.
fn read_bits(bits: &str) -> u64 {
    bits.bytes().fold(0, |n, b| n * 2 + (b - b'0') as u64)
}

/// The entries as a table. An entry longer than the width has no W-bit value: its length alone has
/// test 4 refuse it. (A width that is no width is refused before any value is looked at.)
fn table(sheet: &Sheet) -> Table {
    let mut table = Table::empty(sheet.width, sheet.links);
    for (bits, hop) in sheet.bits.iter().zip(&sheet.hops) {
        let short = bits.len() as u32 <= sheet.width && sheet.width <= 32;
        let value = if short { read_bits(bits) << (sheet.width - bits.len() as u32) } else { 0 };
        table.value.push(value as u32);
        table.length.push(bits.len() as u8);
        table.hop.push(*hop);
    }
    table
}

fn report(text: &[u8]) -> Result<String, Refusal> {
    let sheet = parse(text)?;
    let mut rows = Elements {
        hop: vec![0; ELEMENTS],
        length: vec![0; ELEMENTS],
        link: vec![0; ELEMENTS],
        stride: vec![0; ELEMENTS],
    };
    let mut scratch = vec![0; SCRATCH_ROWS * SCRATCH_ROW];
    let (outcome, record) = build(sheet.kind, sheet.levels, &table(&sheet), &mut scratch, &mut rows);
    outcome?;
    if let Some(at) = sheet.addresses.iter().position(|a| a.len() as u32 != sheet.width) {
        return refuse(8, at as u64);
    }
    let mut out = format!("refusal=0\ndetail=0\nelements={}\nroot={}\n", record.elements, record.strides[0]);
    for address in &sheet.addresses {
        let found = lookup(&record, &rows, read_bits(address) as u32).expect("rows of one build");
        let (hop, length, reads) = (found.hop(), found.length(), found.reads());
        out += &format!("address={address}\nhop={hop}\nlength={length}\nreads={reads}\n");
    }
    Ok(out)
}

/// The whole program: a refusal prints only the lines `refusal` and `detail`.
pub fn run(text: &[u8]) -> String {
    report(text).unwrap_or_else(|r| format!("refusal={}\ndetail={}\n", r.number, r.detail))
}
