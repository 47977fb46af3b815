//! The tablet's side: `yard sheet` writes its text of a table and addresses, `yard read` turns its report back into dotted words. So
//! office and tablet can be held side by side.

use hongsamuk::{DISCARD, WIDTH};

use crate::arrays::{Refusal, Strides};
use crate::dotted::{dotted, hop_word, number, Prefix};
use crate::routes::{Routes, TableFile};
use crate::shown::{self, Line, NONE, NO_ROUTE};
use crate::{files, words, Problem};

pub fn sheet(table: &TableFile, strides: Strides, addresses: &[u32]) -> Result<String, Problem> {
    let routes = Routes::read(table)?;
    words::fits(routes.routes.len(), "routes", "sheet").map_err(|problem| problem.at(&routes.name))?;
    words::fits(addresses.len(), "addresses", "sheet")?;
    let Strides { levels, .. } = strides;
    let mut text = format!("width={WIDTH}\nkind={}\nlevels={levels}\nlinks={}\n", strides.kind_word(), routes.links);
    text.push_str(&format!("entries={}\n", routes.routes.len()));
    for route in &routes.routes {
        let digits = bits(route.prefix.first());
        text.push_str(&format!("bits={}\nhop={}\n", &digits[..route.prefix.length().into()], route.hop));
    }
    text.push_str(&format!("queries={}\n", addresses.len()));
    for address in addresses {
        text.push_str(&format!("address={}\n", bits(*address)));
    }
    Ok(text)
}

/// An address in binary digits, the leftmost first.
fn bits(address: u32) -> String {
    format!("{address:032b}")
}

pub fn read(report: &str) -> Result<String, Problem> {
    let text = files::read(report)?;
    let text = String::from_utf8(text).map_err(|_| Problem("this is no text".into()).at(files::name(report)))?;
    translate(&text).map_err(|problem| problem.at(files::name(report)))
}

/// The lines of a report, and how many of them are read.
struct Lines<'a> {
    lines: Vec<&'a str>,
    read: usize,
}

impl<'a> Lines<'a> {
    /// The value of the next line, which must have this key.
    fn value(&mut self, key: &str) -> Result<&'a str, Problem> {
        let line = self.lines.get(self.read).copied().unwrap_or_default();
        self.read += 1;
        let value = line.strip_prefix(key).and_then(|rest| rest.strip_prefix('='));
        value.ok_or_else(|| self.problem(Problem(format!("here a report has {key}="))))
    }

    fn number(&mut self, key: &str, most: u64) -> Result<u64, Problem> {
        let value = self.value(key)?;
        number(value, most).map_err(|problem| self.problem(problem.at(key)))
    }

    fn is_at_end(&self) -> bool {
        self.read >= self.lines.len()
    }

    /// A problem of the line that was read last.
    fn problem(&self, problem: Problem) -> Problem {
        problem.at(format!("line {}", self.read))
    }
}

/// A whole report in words; a refusal is a problem.
fn translate(report: &str) -> Result<String, Problem> {
    let whole =
        report.strip_suffix('\n').ok_or_else(|| Problem("this is no whole report: its last line has no end".into()))?;
    let mut lines = Lines { lines: whole.split('\n').collect(), read: 0 };
    let number = lines.number("refusal", u32::MAX.into())? as u32;
    let detail = lines.number("detail", if number == 0 { 0 } else { u64::MAX })?;
    match number {
        0 => accepted(&mut lines),
        _ if lines.is_at_end() => Err(words::of_tablet(Refusal { number, detail })),
        _ => Err(Problem(format!("a report of refusal {number} has two lines, and this one has more"))),
    }
}

fn accepted(lines: &mut Lines) -> Result<String, Problem> {
    let (elements, root) = (lines.number("elements", u32::MAX.into())?, lines.number("root", WIDTH.into())?);
    let mut answered: Vec<Line> = Vec::new();
    let mut width = None;
    while !lines.is_at_end() {
        answered.push(answer(lines, &mut width)?);
    }
    Ok(format!("tablet: {}\n{}", shown::element_size(elements, root), shown::answers(&answered)))
}

/// The four lines of an address; all addresses have the width of the first.
fn answer(lines: &mut Lines, width: &mut Option<usize>) -> Result<Line, Problem> {
    let digits = lines.value("address")?;
    let is_binary = digits.bytes().all(|digit| matches!(digit, b'0' | b'1'));
    if !is_binary || !(1..=WIDTH as usize).contains(&digits.len()) || *width.get_or_insert(digits.len()) != digits.len()
    {
        return Err(lines.problem(Problem("an address has 1 to 32 binary digits, each as many as the first".into())));
    }
    let hop = lines.number("hop", DISCARD.into())? as u16;
    let length = lines.number("length", if hop == 0 { 0 } else { digits.len() as u64 })? as usize;
    let reads = lines.number("reads", WIDTH.into())?;
    let (hop, prefix) = if hop == 0 { (NO_ROUTE.into(), NONE.into()) } else { (hop_word(hop), prefix(digits, length)) };
    Ok(Line { address: address(digits), hop, prefix, reads })
}

/// The address of 32 bits that the digits are.
fn whole(digits: &str) -> Option<u32> {
    u32::from_str_radix(digits, 2).ok().filter(|_| digits.len() == WIDTH as usize)
}

/// Dotted, or the digits where there are not 32.
fn address(digits: &str) -> String {
    whole(digits).map_or(digits.into(), dotted)
}

/// Dotted, or the first digits and a star.
fn prefix(digits: &str, length: usize) -> String {
    whole(digits).map_or(format!("{}*", &digits[..length]), |address| Prefix::of(address, length as u8).to_string())
}
