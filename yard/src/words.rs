//! Refusals in words: the number, what it is about, and what to do. The numbers are those of the bureau's page.

use hongsamuk::{ELEMENTS, ENTRIES};

use crate::arrays::{How, Refusal, Strides};
use crate::dotted::{dotted, grouped, hop_word};
use crate::routes::Routes;
use crate::shown::counted;
use crate::Problem;

/// The most routes, and the most addresses, of a sheet; and the most routes of a picture.
const MOST: usize = 64;
/// What the tablet lends: rows of scratch, and elements.
const TABLET_ROWS: u64 = 112;
const TABLET_ELEMENTS: u64 = 8192;
/// The line of the first entry on a sheet; each has two, its bits and its hop.
const FIRST_ENTRY_LINE: u64 = 6;

const FAULT: &str = "a fault of yard, or of the archive that it was linked with: build both anew";
const NO_TABLET: &str = "no tablet says so: see where the report comes from";

/// Whether so many things fit a sheet or a picture.
pub fn fits(count: usize, things: &str, place: &str) -> Result<(), Problem> {
    if count > MOST {
        return Err(Problem(format!("{count} {things}, and a {place} has room for {MOST}")));
    }
    Ok(())
}

fn refused(number: u32, why: &str, remedy: &str) -> Problem {
    Problem(format!("refused ({number}): {why}: {remedy}"))
}

/// A refused build of a file's routes. Room is lent as it is asked for, prefixes are good, and entries are in order: what else is
/// refused is a fault.
pub fn of_build(refusal: Refusal, routes: &Routes, how: How) -> Problem {
    let Refusal { number, detail } = refusal;
    let (why, remedy) = match (number, how) {
        (2, How::Elements(Strides { levels, .. })) => (levels_out(levels), "say --levels with a number from 1 to 32"),
        (3, _) => (too_many(routes), "divide it"),
        (4, _) => bad_hop(detail, routes),
        (7, How::Elements(strides)) => {
            (too_large(strides, detail), "allow more levels with --levels; yard lookup has --kind bitmap too")
        }
        _ => (format!("detail {detail}"), FAULT),
    };
    refused(number, &why, remedy)
}

fn levels_out(levels: u32) -> String {
    format!("{levels} is no number of levels")
}

fn too_many(routes: &Routes) -> String {
    let (count, most) = (grouped(routes.routes.len() as u64), grouped(ENTRIES as u64));
    format!("{} has {count} routes, and a table has at most {most}", routes.name)
}

/// The prefixes of a file are good, so an entry is refused for its hop.
fn bad_hop(entry: u64, routes: &Routes) -> (String, &'static str) {
    let Some(route) = routes.routes.get(entry as usize) else { return (format!("there is no entry {entry}"), FAULT) };
    let place = format!("{}, line {}: {}", routes.name, route.line, route.prefix);
    if route.hop == 0 {
        return (format!("{place} has hop 0, and links count from 1"), "write a link, or discard");
    }
    let (hop, links) = (hop_word(route.hop), counted(routes.links.into(), "link"));
    let why = format!("{place} has hop {hop}, and the gateway has {links}");
    (why, "write one of its links, or discard; or say with --links how many it has")
}

fn too_large(strides: Strides, elements: u64) -> String {
    let (elements, most) = (grouped(elements), grouped(ELEMENTS.into()));
    format!("{strides} takes {elements} elements, and no build has more than {most}")
}

/// A lookup over a build's own arrays that is refused.
pub fn of_lookup(number: u32, address: u32) -> Problem {
    refused(number, &dotted(address), FAULT)
}

/// A refused sheet: the tablet's refusals are about the lines of its text. Those that it never gives are there too: a report may come
/// from anywhere.
pub fn of_tablet(refusal: Refusal) -> Problem {
    let Refusal { number, detail } = refusal;
    let (why, remedy) = match number {
        1 => ("the width is 0 or above 32".into(), "write width=32 in line 1 of the sheet"),
        2 => ("the level count is 0 or above 32".into(), "write a number from 1 to 32 in line 3 of the sheet"),
        3 => ("lists of unequal length, or too many entries".into(), NO_TABLET),
        4 => (
            format!("{} has more bits than the width, or a hop that is no link of the gateway", entry_place(detail)),
            "shorten the bits; or write a link from 1 to the number in line 4 of the sheet, or 65535, which discards",
        ),
        5 => (format!("{} does not stand above the one before", entry_place(detail)), "sort them, as yard sheet does"),
        6 => (
            format!("the table takes {} rows of scratch, and the tablet lends {TABLET_ROWS}", grouped(detail)),
            "take fewer routes, or ask yard lookup",
        ),
        7 => (
            format!("the build takes {} elements, and the tablet lends {}", grouped(detail), grouped(TABLET_ELEMENTS)),
            "allow more levels, or write kind=vst, or ask yard lookup",
        ),
        8 => (
            format!("address {} of the sheet has not as many bits as the width", detail.saturating_add(1)),
            "write as many as line 1 of the sheet says",
        ),
        9 => ("a damaged record or damaged rows".into(), NO_TABLET),
        10 => ("a bad prefix that was asked about".into(), NO_TABLET),
        11 => (format!("line {detail} of the sheet is bad"), "write it as README's \"A text and its report\" has it"),
        _ => ("a number that no refusal has".into(), NO_TABLET),
    };
    refused(number, &why, remedy)
}

/// Where an entry stands on a sheet; a detail counts from 0.
fn entry_place(entry: u64) -> String {
    let line = entry.saturating_mul(2).saturating_add(FIRST_ENTRY_LINE);
    format!("the entry in lines {line} and {} of the sheet", line.saturating_add(1))
}
