//! Texts with numbers of links that are enough or too few, and with a line of links that is absent, twice, elsewhere or not whole
//! (02, [7]).

use super::{any_draft, table_text, text, values, Draft};
use crate::random::Random;
use crate::table::{Refusal, LINKS};
use crate::tablet;
use crate::vectors::links::{self, otherwise_good, small};
use crate::vectors::Vectors;

/// What a report says of its text.
fn outcome(report: &str) -> Result<(), Refusal> {
    let number = |key: &str| values(report, key)[0].parse::<u64>().expect("a number");
    match number("refusal") {
        0 => Ok(()),
        refusal => Err(Refusal { number: refusal as u32, detail: number("detail") }),
    }
}

/// The same text with another number of links.
fn with_links(text: &str, links: u16) -> String {
    let line = |line: &str| if line.starts_with("links=") { format!("links={links}\n") } else { format!("{line}\n") };
    text.lines().map(line).collect()
}

/// Counts what a report shows of links, where the text is good: its own lines say hops and links.
pub fn count(vectors: &mut Vectors, given: &[u8], report: &str) {
    let answer = outcome(report);
    if answer.is_err_and(|refusal| refusal.number == 11) {
        return;
    }
    let given = std::str::from_utf8(given).expect("a good text");
    let numbers = |key: &str| values(given, key).iter().map(|n| n.parse().expect("a number")).collect::<Vec<u16>>();
    let most = || outcome(&tablet::run(with_links(given, LINKS).as_bytes()));
    links::count(vectors, "text", (&numbers("hop"), numbers("links")[0]), answer, most);
}

/// With enough links the report is that with the most.
pub fn hops(vectors: &mut Vectors) {
    for (i, made) in small().into_iter().chain(otherwise_good()).enumerate() {
        let addresses: Vec<u32> = if made.width <= 4 { (0..1 << made.width).collect() } else { vec![0, 33, 63] };
        let given = table_text(&made, ["fst", "vst"][i % 2], 2, &addresses);
        let report = tablet::run(given.as_bytes());
        if report.starts_with("refusal=0\n") {
            assert!(report == tablet::run(with_links(&given, LINKS).as_bytes()), "links change a report: {report}");
        }
        text(vectors, given.as_bytes());
    }
}

/// A line of links that is absent, twice, before `levels=` or behind `entries=`, and a text that ends in it or behind it, with
/// the bad line of each.
fn misplaced(random: &mut Random, made: &Draft) -> [(&'static str, Vec<u8>, u64); 6] {
    let changed = |change: &dyn Fn(&mut Vec<String>)| {
        let mut other = made.clone();
        change(&mut other.lines);
        other.text()
    };
    let until = |lines: usize| made.lines[..lines].iter().map(|line| line.len() + 1).sum::<usize>();
    let within = until(3) + random.within(0, made.lines[3].len() as u64) as usize;
    [
        ("no line of links", changed(&|lines| drop(lines.remove(3))), 4),
        ("two lines of links", changed(&|lines| lines.insert(3, lines[3].clone())), 5),
        ("links before levels", changed(&|lines| lines.swap(2, 3)), 3),
        ("links behind entries", changed(&|lines| lines.swap(3, 4)), 4),
        ("end in the line of links", made.text()[..within].to_vec(), 4),
        ("end behind the line of links", made.text()[..until(4)].to_vec(), 5),
    ]
}

pub fn places(vectors: &mut Vectors, random: &mut Random) {
    for _ in 0..12 {
        let made = any_draft(random);
        for (what, given, line) in misplaced(random, &made) {
            let report = tablet::run(&given);
            assert!(report == format!("refusal=11\ndetail={line}\n"), "{what}: {report}");
            vectors.hit(what);
            text(vectors, &given);
        }
    }
}
