//! Builds: the archive against the same algorithm in plain Rust, and how the time grows; and how many elements they need, and how
//! many bytes beside a tree bitmap.

use crate::bitmaps::{needed, timed_build, Needed, HOP, SUPERNODE};
use crate::plain;
use crate::rounds::{alternate, Timed};
use crate::routes::{Routes, WIDTH};
use hongsamuk::{Kind, Outcome, Record, Table};
use std::cell::RefCell;

/// The level limit of the lookups, and one of those at which growth is measured.
pub const K: u32 = 3;
/// The level limits at which builds of one table are measured.
const LIMITS: [u32; 10] = [1, 2, 3, 4, 5, 6, 7, 8, 16, 32];
/// Those at which growth is.
const GROWING: [u32; 3] = [K, 8, 32];
/// Those at which memory is.
const FEW: std::ops::RangeInclusive<u32> = 2..=8;
/// The numbers of routes over which growth is measured.
pub const SIZES: [usize; 6] = [512, 1024, 2048, 4096, 16_384, 65_536];
/// The most elements of a build.
const ELEMENTS: usize = hongsamuk::ELEMENTS as usize;
/// Rows of a block of 8 bits.
const OCTET: u64 = 256;
/// Bytes of an element in the four lists.
const ELEMENT: u64 = 8;

/// Element lists.
#[derive(Clone, PartialEq, Eq)]
pub struct Rows {
    pub hop: Vec<u16>,
    pub length: Vec<u8>,
    pub link: Vec<u32>,
    pub stride: Vec<u8>,
}

impl Rows {
    pub fn new(n: usize) -> Rows {
        Rows { hop: vec![0; n], length: vec![0; n], link: vec![0; n], stride: vec![0; n] }
    }

    /// What the archive builds, in lists just long enough.
    pub fn of(kind: Kind, levels: u32, routes: &Routes) -> (Record, Rows) {
        let mut rows = Rows::new(least(kind, levels, routes) as usize);
        let built = archive(kind, levels, routes, &mut scratch(routes), &mut rows);
        assert!(built.0 == Outcome::Accepted, "room for the least number of elements");
        (built.1, rows)
    }

    pub fn elements(&self) -> plain::Elements<'_> {
        plain::Elements { hop: &self.hop, length: &self.length, link: &self.link, stride: &self.stride }
    }

    pub fn lent(&self) -> hongsamuk::Rows<'_> {
        hongsamuk::Rows { hop: &self.hop, length: &self.length, link: &self.link, stride: &self.stride }
    }
}

pub fn table(routes: &Routes) -> Table<'_> {
    Table { width: WIDTH, links: routes.links, value: &routes.value, length: &routes.length, hop: &routes.hop }
}

fn nodes(routes: &Routes) -> usize {
    (0..WIDTH).map(|level| routes.nodes(level) as usize).sum()
}

fn scratch(routes: &Routes) -> Vec<u64> {
    vec![0; nodes(routes) * plain::SCRATCH_ROW]
}

fn least(kind: Kind, levels: u32, routes: &Routes) -> u64 {
    hongsamuk::choose(kind, levels, table(routes), &mut scratch(routes)).cost
}

pub fn archive(kind: Kind, levels: u32, routes: &Routes, scratch: &mut [u64], rows: &mut Rows) -> (Outcome, Record) {
    let Rows { hop, length, link, stride } = rows;
    let room = hongsamuk::RowsMut { hop, length, link, stride };
    let built = hongsamuk::build(kind, levels, table(routes), scratch, room);
    (built.outcome, built.record)
}

pub fn plain_table(routes: &Routes) -> plain::Table<'_> {
    plain::Table { width: WIDTH, links: routes.links, value: &routes.value, length: &routes.length, hop: &routes.hop }
}

pub fn outcome(tested: Result<(), (u32, u64)>) -> Outcome {
    tested.map_or_else(|(number, detail)| Outcome::Refused { number, detail }, |()| Outcome::Accepted)
}

pub fn in_plain_rust(
    kind: Kind,
    levels: u32,
    routes: &Routes,
    scratch: &mut [u64],
    rows: &mut Rows,
) -> (Outcome, Record) {
    let Rows { hop, length, link, stride } = rows;
    let room = plain::Lent { hop, length, link, stride };
    let built = plain::build(kind, levels, &plain_table(routes), scratch, room);
    (outcome(built.refusal), built.record)
}

/// Both ways in the same scratch, so that neither has the better place for it; the element lists are each side's own.
fn timed(kind: Kind, levels: u32, routes: &Routes) -> (Timed, u64) {
    let cost = least(kind, levels, routes);
    let mut ours = Rows::new((cost as usize).min(ELEMENTS));
    let mut theirs = ours.clone();
    let scratch = RefCell::new(scratch(routes));
    let timed = alternate(
        rounds(routes),
        || archive(kind, levels, routes, &mut scratch.borrow_mut(), &mut ours),
        || in_plain_rust(kind, levels, routes, &mut scratch.borrow_mut(), &mut theirs),
    );
    assert!(ours == theirs, "the same rows");
    (timed, cost)
}

/// Fewer rounds where a build takes long.
fn rounds(routes: &Routes) -> usize {
    match routes.value.len() {
        0..=4096 => 101,
        4097..=16_384 => 21,
        _ => 5,
    }
}

fn milliseconds(nanoseconds: f64) -> f64 {
    nanoseconds / 1e6
}

/// What was timed, in the last columns of a row.
fn columns(timed: &Timed) -> String {
    format!("{:.2} | {:.2} | {:.2} |", milliseconds(timed.first), milliseconds(timed.second), timed.ratio)
}

/// Both kinds with each level limit, and the bitmap.
pub fn measure(routes: &Routes) {
    println!("| Kind | k | Rows | Archive, ms | Plain Rust, ms | Ratio |");
    println!("|---|---|---|---|---|---|");
    for kind in [Kind::Fixed, Kind::Variable] {
        for levels in LIMITS {
            let (timed, cost) = timed(kind, levels, routes);
            println!("| {kind:?} | {levels} | {cost} | {}", columns(&timed));
        }
    }
    let (timed, Needed { supernodes, .. }) = timed_build(routes, rounds(routes));
    println!("| Bitmap | | {supernodes} | {}", columns(&timed));
}

/// Growth with the number of routes.
pub fn growth(seed: u64) {
    println!("| Kind | k | n | Trie nodes | Rows | Archive, ms | Plain Rust, ms | Ratio |");
    println!("|---|---|---|---|---|---|---|---|");
    for kind in [Kind::Fixed, Kind::Variable] {
        for levels in GROWING {
            for n in SIZES {
                let routes = Routes::new(n, 0, seed);
                let (timed, cost) = timed(kind, levels, &routes);
                println!("| {kind:?} | {levels} | {n} | {} | {cost} | {}", nodes(&routes), columns(&timed));
            }
        }
    }
    for n in SIZES {
        let routes = Routes::new(n, 0, seed);
        let (timed, Needed { nodes, supernodes }) = timed_build(&routes, rounds(&routes));
        println!("| Bitmap | | {n} | {nodes} | {supernodes} | {}", columns(&timed));
    }
}

/// E of both kinds against a table of one level, and one of 8, 8, 8 and 8 bits; then bytes.
pub fn memory(routes: &Routes) {
    let octets: u64 = (0..WIDTH).step_by(8).map(|level| routes.nodes(level) * OCTET).sum();
    let one = 1u64 << routes.longest();
    println!("One level: {one} elements. 8-8-8-8: {octets} elements.\n");
    println!("| k | Fixed: E | of one level | of 8-8-8-8 | Variable: E | of one level | of 8-8-8-8 |");
    println!("|---|---|---|---|---|---|---|");
    let share = |e: u64, of: u64| format!("{:.3} %", 100.0 * e as f64 / of as f64);
    for levels in FEW {
        let columns: String = [Kind::Fixed, Kind::Variable]
            .into_iter()
            .map(|kind| least(kind, levels, routes))
            .map(|e| format!(" {e} | {} | {} |", share(e, one), share(e, octets)))
            .collect();
        println!("| {levels} |{columns}");
    }
    println!();
    bytes(routes);
}

/// Bytes a route of both kinds, and of the tree bitmap.
fn bytes(routes: &Routes) {
    let a_route = |bytes: u64| bytes as f64 / routes.value.len() as f64;
    println!("| k | Fixed: bytes a route | Variable: bytes a route |");
    println!("|---|---|---|");
    for levels in FEW {
        let of = |kind| a_route(least(kind, levels, routes) * ELEMENT);
        println!("| {levels} | {:.1} | {:.1} |", of(Kind::Fixed), of(Kind::Variable));
    }
    let (supernodes, hops) = (needed(routes).supernodes as u64, routes.value.len() as u64);
    let bitmap = a_route(supernodes * SUPERNODE + hops * HOP);
    let reads = routes.longest() / 4 + 1;
    println!("\nTree bitmap: {supernodes} supernodes, {hops} hops, {bitmap:.1} bytes a route; at most {reads} reads.");
}
