//! Tree bitmaps: lookups and builds of the archive against plain Rust with the same arrays, and how many bytes they take.

use crate::building::{plain_table, table};
use crate::plain;
use crate::rounds::{alternate, Timed};
use crate::routes::Routes;
use hongsamuk::{raw, Bitmap, BitmapRows, BitmapRowsMut, Outcome};
use std::cell::RefCell;

/// Bytes of a supernode's row in the four lists, and of a hop.
pub const SUPERNODE: u64 = 12;
pub const HOP: u64 = 2;

/// The lists of a bitmap.
#[derive(Clone, PartialEq, Eq)]
pub struct Arrays {
    internal: Vec<u16>,
    external: Vec<u16>,
    first_child: Vec<u32>,
    first_hop: Vec<u32>,
    hop_row: Vec<u16>,
}

/// The nodes of a table's binary trie, and its supernodes.
pub struct Needed {
    pub nodes: usize,
    pub supernodes: usize,
}

impl Arrays {
    fn new(supernodes: usize, hops: usize) -> Arrays {
        Arrays {
            internal: vec![0; supernodes],
            external: vec![0; supernodes],
            first_child: vec![0; supernodes],
            first_hop: vec![0; supernodes],
            hop_row: vec![0; hops],
        }
    }

    /// What the archive builds, in lists just long enough.
    pub fn of(routes: &Routes) -> (Bitmap, Arrays) {
        let Needed { nodes, supernodes } = needed(routes);
        let mut arrays = Arrays::new(supernodes, routes.value.len());
        let built = archive(routes, &mut scratch(nodes), &mut arrays);
        assert!(built.0 == Outcome::Accepted, "room for the supernodes");
        (built.1, arrays)
    }

    fn rows(&self) -> BitmapRows<'_> {
        BitmapRows {
            internal: &self.internal,
            external: &self.external,
            first_child: &self.first_child,
            first_hop: &self.first_hop,
            hop_row: &self.hop_row,
        }
    }

    fn room(&mut self) -> BitmapRowsMut<'_> {
        BitmapRowsMut {
            internal: &mut self.internal,
            external: &mut self.external,
            first_child: &mut self.first_child,
            first_hop: &mut self.first_hop,
            hop_row: &mut self.hop_row,
        }
    }
}

fn scratch(nodes: usize) -> Vec<u64> {
    vec![0; nodes * plain::NODE_ROW]
}

fn archive(routes: &Routes, scratch: &mut [u64], arrays: &mut Arrays) -> (Outcome, Bitmap) {
    let built = hongsamuk::build_bitmap(table(routes), scratch, arrays.room());
    (built.outcome, built.record)
}

fn in_plain_rust(routes: &Routes, scratch: &mut [u64], arrays: &mut Arrays) -> (Outcome, Bitmap) {
    let built = plain::build_bitmap(&plain_table(routes), scratch, arrays.room());
    let refused = |(number, detail)| Outcome::Refused { number, detail };
    (built.refusal.map_or_else(refused, |()| Outcome::Accepted), built.record)
}

/// As the refusals tell: with no scratch the nodes, then with no rows the supernodes.
pub fn needed(routes: &Routes) -> Needed {
    let mut arrays = Arrays::new(0, routes.value.len());
    let mut told = |words: &mut [u64]| match archive(routes, words, &mut arrays).0 {
        Outcome::Refused { number: 6..=7, detail } => detail as usize,
        other => panic!("no refusal for room: {other:?}"),
    };
    let nodes = told(&mut []);
    Needed { nodes, supernodes: told(&mut scratch(nodes)) }
}

/// A build just in room enough, both ways in the same scratch.
pub fn timed_build(routes: &Routes, rounds: usize) -> (Timed, Needed) {
    let needed = needed(routes);
    let mut ours = Arrays::new(needed.supernodes, routes.value.len());
    let mut theirs = ours.clone();
    let scratch = RefCell::new(scratch(needed.nodes));
    let timed = alternate(
        rounds,
        || archive(routes, &mut scratch.borrow_mut(), &mut ours),
        || in_plain_rust(routes, &mut scratch.borrow_mut(), &mut theirs),
    );
    assert!(ours == theirs, "the same rows");
    (timed, needed)
}

/// The sum keeps the compiler from leaving anything out.
fn archive_lookups(record: Bitmap, rows: BitmapRows, addresses: &[u32]) -> u64 {
    let mut sum = 0;
    for address in addresses {
        // SAFETY: pointers and lengths are those of lists, which the call only reads.
        let answer = unsafe {
            raw::hongsamuk_lookup_bitmap(
                record,
                rows.internal.as_ptr(),
                rows.internal.len(),
                rows.external.as_ptr(),
                rows.external.len(),
                rows.first_child.as_ptr(),
                rows.first_child.len(),
                rows.first_hop.as_ptr(),
                rows.first_hop.len(),
                rows.hop_row.as_ptr(),
                rows.hop_row.len(),
                *address,
            )
        };
        sum += u64::from(answer.number) + u64::from(answer.hop) + u64::from(answer.length) + u64::from(answer.reads);
    }
    sum
}

fn plain_lookups(record: Bitmap, rows: BitmapRows, addresses: &[u32]) -> u64 {
    addresses.iter().map(|address| plain::lookup_bitmap(record, rows, *address).sum()).sum()
}

/// Lookups of these addresses, both ways.
pub fn timed_lookups(record: Bitmap, arrays: &Arrays, addresses: &[u32], rounds: usize) -> Timed {
    let rows = arrays.rows();
    alternate(rounds, || archive_lookups(record, rows, addresses), || plain_lookups(record, rows, addresses))
}
