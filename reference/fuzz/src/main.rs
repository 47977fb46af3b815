//! The archive for C against the independent reference, call by call, over lists that end at memory that may not be touched.

mod bitmap_harm;
mod bitmaps;
mod calls;
mod harm;
mod large;
mod large_rules;
mod memory;
mod planted;
mod rule_harm;
mod rule_lists;
mod rules;
mod tables;
mod tally;
mod trying;

use calls::Lists;
use memory::Edge;
use reference::random::Random;
use tally::Tally;
use trying::{Trial, SMALL};

const USAGE: &str = "usage: fuzz run [--seed S] [--first CASE] [--builds N] [--lookups M] [--edge 0|1]
       fuzz large
       fuzz planted [--seed S]
run tries cases until at least N builds of elements and M lookups in them were done, tree bitmaps with each and rules with some, from
case CASE (0) on; the first difference ends it with status 1.
Each lent list ends at a page that may not be touched; with --edge 1 each begins after one instead.";

/// Every so many cases one has a record and rows of any numbers instead of a table.
const NOISE: u64 = 8;
/// Every so many cases rules are tried too; with noise, arrays for them of any numbers.
const RULED: u64 = 2;
/// The most addresses asked of one build.
const ASKED: u64 = 12;
/// Every so many cases progress is told.
const TOLD: u64 = 100_000;

struct Wanted {
    seed: u64,
    first: u64,
    builds: u64,
    lookups: u64,
    edge: u64,
}

fn wanted(words: &[String]) -> Option<Wanted> {
    let mut wanted = Wanted { seed: 1, first: 0, builds: 1_000_000, lookups: 10_000_000, edge: 0 };
    for pair in words.chunks(2) {
        let [name, number] = pair else { return None };
        let place = match name.as_str() {
            "--seed" => &mut wanted.seed,
            "--first" => &mut wanted.first,
            "--builds" => &mut wanted.builds,
            "--lookups" => &mut wanted.lookups,
            "--edge" => &mut wanted.edge,
            _ => return None,
        };
        *place = number.parse().ok()?;
    }
    Some(wanted)
}

/// Each case has a generator of its own, so that it can be tried alone.
fn generator(seed: u64, case: u64) -> Random {
    let mut random = Random::new(seed.wrapping_mul(0x2545_f491_4f6c_dd1d) ^ case);
    random.next();
    random
}

fn run(wanted: &Wanted) -> bool {
    let edge = if wanted.edge == 0 { Edge::Last } else { Edge::First };
    let (mut lists, mut tally) = (Lists::new(&SMALL, edge), Tally::default());
    let mut case = wanted.first;
    while tally.builds() < wanted.builds || tally.lookups() < wanted.lookups {
        let random = generator(wanted.seed, case);
        let mut trial = Trial::new(&mut lists, &mut tally, random, ASKED);
        let mut same = if case % NOISE == NOISE - 1 { trial.noise() } else { trial.table() };
        same = match (case % NOISE == NOISE - 1, case % RULED) {
            (true, _) => same.and_then(|()| trial.rule_noise()),
            (_, 0) => same.and_then(|()| trial.rules()),
            _ => same,
        };
        case += 1;
        if let Err(text) = same {
            println!("seed {} case {}: DIFFERENCE: {text}", wanted.seed, case - 1);
            println!("caught after {case} cases, {}", tally.done());
            return false;
        }
        if case % TOLD == 0 {
            eprintln!("case {case}: {}", tally.done());
        }
    }
    tally.print();
    println!("seed {}, lists at edge {edge:?}: cases {} to {}, 0 differences", wanted.seed, wanted.first, case - 1);
    true
}

/// Whether memory is guarded here: each stray access must end a process of its own by a signal.
fn guarded() -> bool {
    let program = std::env::current_exe().expect("the program's own name");
    let touched = |place: &str| {
        let status = std::process::Command::new(&program).args(["touch", place]).status().expect("a child process");
        status.code()
    };
    let stopped = ["past", "before", "write-past", "write-read-only"].into_iter().all(|place| touched(place).is_none());
    println!("stray accesses stop a process: {stopped}");
    stopped && touched("inside") == Some(0)
}

fn main() {
    let words: Vec<String> = std::env::args().skip(1).collect();
    let (command, rest) = words.split_first().map_or(("", &words[..]), |(c, r)| (c.as_str(), r));
    let good = match (command, wanted(rest)) {
        ("run", Some(wanted)) => guarded() && run(&wanted),
        ("large", Some(_)) => guarded() && large::run(),
        ("planted", Some(wanted)) => planted::run(wanted.seed),
        ("touch", None) => {
            memory::touch(&rest[0]);
            true
        }
        _ => {
            eprintln!("{USAGE}");
            std::process::exit(2);
        }
    };
    std::process::exit(!good as i32);
}
