//! Answers and tables as text: columns that stand under each other, and an answer in a few words.

use hongsamuk::{Answer, DISCARD};

use crate::arrays::Arrays;
use crate::dotted::{dotted, grouped, hop_phrase, hop_word, Prefix};
use crate::{words, Problem};

/// One answered address, in words for its columns.
pub struct Line {
    pub address: String,
    pub hop: String,
    pub prefix: String,
    pub reads: u64,
}

pub const NO_ROUTE: &str = "no route";
/// A cell with nothing to say.
pub const NONE: &str = "-";

pub fn line(address: u32, answer: Answer) -> Result<Line, Problem> {
    let by = |length| Prefix::of(address, length).to_string();
    let (hop, prefix, reads) = match answer {
        Answer::Match { hop, length, reads } => (hop_word(hop), by(length), reads),
        Answer::Discard { length, reads } => (hop_word(DISCARD), by(length), reads),
        Answer::NoRoute { reads } => (NO_ROUTE.into(), NONE.into(), reads),
        Answer::Refused { number } => return Err(words::of_lookup(number, address)),
    };
    Ok(Line { address: dotted(address), hop, prefix, reads: reads.into() })
}

/// An answer in a few words: `hop 3 by 10.0.0.0/8`.
pub fn in_words(address: u32, answer: Answer) -> String {
    match (answer, answer.won()) {
        (Answer::Refused { number }, _) => format!("refused ({number})"),
        (_, Some((hop, length))) => format!("{} by {}", hop_phrase(hop), Prefix::of(address, length)),
        (_, None) => NO_ROUTE.into(),
    }
}

/// The reads of an answer; none of a refusal.
pub fn reads(answer: Answer) -> Option<u32> {
    match answer {
        Answer::Match { reads, .. } | Answer::Discard { reads, .. } | Answer::NoRoute { reads } => Some(reads),
        Answer::Refused { .. } => None,
    }
}

/// The table of the answered addresses.
pub fn answers(lines: &[Line]) -> String {
    let mut rows = vec![["address".into(), "hop".into(), "prefix".into(), "reads".into()]];
    for line in lines {
        rows.push([line.address.clone(), line.hop.clone(), line.prefix.clone(), line.reads.to_string()]);
    }
    columns(&rows, [false, false, false, true])
}

/// Rows in columns as wide as their widest cell, two blanks between them, and set to the right where that is said.
pub fn columns<const N: usize>(rows: &[[String; N]], right: [bool; N]) -> String {
    let wide = |column: usize| rows.iter().map(|row| row[column].chars().count()).max().unwrap_or(0);
    let widths: Vec<usize> = (0..N).map(wide).collect();
    let mut text = String::new();
    for row in rows {
        let cells = (0..N).map(|i| match right[i] {
            true => format!("{:>wide$}", row[i], wide = widths[i]),
            false => format!("{:<wide$}", row[i], wide = widths[i]),
        });
        text.push_str(cells.collect::<Vec<_>>().join("  ").trim_end());
        text.push('\n');
    }
    text
}

/// A number of things, with its thousands set apart: `1 route`, `1,024 routes`.
pub fn counted(number: u64, thing: &str) -> String {
    let end = if number == 1 { "" } else { "s" };
    format!("{} {thing}{end}", grouped(number))
}

/// The size of a build in elements.
pub fn element_size(elements: u64, root: u64) -> String {
    format!("{}, root stride {root}", counted(elements, "element"))
}

pub fn size(arrays: &Arrays) -> String {
    match arrays {
        Arrays::Elements(elements) => element_size(elements.record.elements.into(), elements.record.strides[0].into()),
        Arrays::Bitmap(supernodes) => {
            let record = supernodes.record;
            format!("{}, {}", counted(record.supernodes.into(), "supernode"), counted(record.hops.into(), "hop"))
        }
    }
}

#[cfg(test)]
mod tests {
    use super::*;

    /// An address that was not answered has no line.
    #[test]
    fn a_refused_lookup_is_a_problem() {
        let problem = line(0x0a000001, Answer::Refused { number: 9 }).err().map(|problem| problem.0);
        assert!(problem.is_some_and(|problem| problem.starts_with("refused (9): 10.0.0.1: ")));
    }
}
