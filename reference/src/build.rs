//! The stride choosers, the element rows and the build (01, "The element rows" and "Refusals", 1 to
//! 7, with what each list then holds). Blocks are laid by a queue: the root at row 0, each further
//! block behind all those laid before it, in the order in which rows call for them.

use crate::choices::{choose, Choice, Kind, LEVELS};
use crate::table::{refuse, test_width, Refusal, Table};
use crate::trie::Trie;
use std::collections::{BTreeMap, VecDeque};

/// The numbers of one scratch row (01 leaves the constant to the project, at most 24; 02 allows 72).
pub const SCRATCH_ROW: usize = 72;
/// The largest E that any build accepts.
pub const ELEMENTS: u64 = 16_777_216;

#[derive(Clone, Copy, PartialEq, Eq, Debug, Default)]
pub struct Record {
    pub width: u32,
    pub levels: u32,
    pub elements: u32,
    pub floor: u16,
    pub strides: [u8; LEVELS],
}

/// The four element lists (01: three; 02, [5], adds the length).
#[derive(Clone, PartialEq, Eq, Debug, Default)]
pub struct Elements {
    pub hop: Vec<u16>,
    pub length: Vec<u8>,
    pub link: Vec<u32>,
    pub stride: Vec<u8>,
}

impl Elements {
    pub fn shortest(&self) -> usize {
        self.hop.len().min(self.length.len()).min(self.link.len()).min(self.stride.len())
    }

    /// The shortest of the other three: where it has E rows and `shortest` has not, the length list alone is too short.
    pub fn shortest_but_lengths(&self) -> usize {
        self.hop.len().min(self.link.len()).min(self.stride.len())
    }

    /// A list that ends before that row has nothing there.
    pub fn part(&self, place: usize) -> Part<'_> {
        Part {
            hop: self.hop.get(place..).unwrap_or(&[]),
            length: self.length.get(place..).unwrap_or(&[]),
            link: self.link.get(place..).unwrap_or(&[]),
            stride: self.stride.get(place..).unwrap_or(&[]),
        }
    }
}

/// The element lists from a row on, as a trie that does not begin at row 0 has them (02, [6]).
#[derive(Clone, Copy)]
pub struct Part<'a> {
    pub hop: &'a [u16],
    pub length: &'a [u8],
    pub link: &'a [u32],
    pub stride: &'a [u8],
}

impl Part<'_> {
    pub fn shortest(&self) -> usize {
        self.hop.len().min(self.length.len()).min(self.link.len()).min(self.stride.len())
    }
}

/// Test 2: k is 0 or above 32 (02).
pub fn test_levels(levels: u32) -> Result<(), Refusal> {
    if levels == 0 || levels > LEVELS as u32 {
        return refuse(2, 0);
    }
    Ok(())
}

/// Tests 1 to 6, in order, and the choice they allow. 6: scratch has fewer whole rows than 1-bit nodes.
fn tested(kind: Kind, levels: u32, table: &Table, scratch: &[u64]) -> Result<(Trie, Choice), Refusal> {
    test_width(table.width)?;
    test_levels(levels)?;
    table.test_lists()?;
    table.test_entries()?;
    let trie = Trie::of(table);
    if scratch.len() / SCRATCH_ROW < trie.size() {
        return refuse(6, trie.size() as u64);
    }
    let choice = choose(kind, &trie, levels);
    Ok((trie, choice))
}

/// A stride chooser tests 1 to 6 and answers the least cost and the record's strides; accepted, it
/// zeroes all scratch; refused, it answers cost 0 and zero strides and changes nothing.
pub fn chosen(kind: Kind, levels: u32, table: &Table, scratch: &mut [u64]) -> (Result<(), Refusal>, u64, [u8; LEVELS]) {
    match tested(kind, levels, table, scratch) {
        Err(refusal) => (Err(refusal), 0, [0; LEVELS]),
        Ok((_, choice)) => {
            scratch.fill(0);
            (Ok(()), choice.cost, choice.strides())
        }
    }
}

/// A build tests 1 to 7. Refusals 1 to 6 change no list. Refusal 7 zeroes all scratch and changes no
/// element. An accepted build zeroes all scratch, writes rows 0 to E-1 and keeps later rows. A
/// refused build's record is all zeros.
pub fn build(
    kind: Kind,
    levels: u32,
    table: &Table,
    scratch: &mut [u64],
    elements: &mut Elements,
) -> (Result<(), Refusal>, Record) {
    let (trie, choice) = match tested(kind, levels, table, scratch) {
        Err(refusal) => return (Err(refusal), Record::default()),
        Ok(found) => found,
    };
    scratch.fill(0);
    // E is the cost of the choice; that the rows are as many is checked below.
    let rows = choice.cost;
    if rows > elements.shortest() as u64 || rows > ELEMENTS {
        return (refuse(7, rows), Record::default());
    }
    let laid = lay(table, &trie, &choice);
    assert!(laid.hop.len() as u64 == rows, "E is the cost");
    elements.hop[..laid.hop.len()].copy_from_slice(&laid.hop);
    elements.length[..laid.length.len()].copy_from_slice(&laid.length);
    elements.link[..laid.link.len()].copy_from_slice(&laid.link);
    elements.stride[..laid.stride.len()].copy_from_slice(&laid.stride);
    let record =
        Record { width: table.width, levels, elements: rows as u32, floor: table.floor(), strides: choice.strides() };
    (Ok(()), record)
}

/// A block: the node where it begins, its number on its path (from 0) and its stride.
struct Block {
    node: String,
    nth: usize,
    stride: u32,
}

/// All rows: blocks without gaps, breadth first, left to right, the root at row 0.
pub fn lay(table: &Table, trie: &Trie, choice: &Choice) -> Elements {
    let hops: BTreeMap<String, u16> = table.entries().into_iter().zip(table.hop.iter().copied()).collect();
    let mut rows = Elements::default();
    let mut queue = VecDeque::new();
    let mut next: u32 = 0;
    if trie.has("") {
        let stride = choice.stride("", 0);
        next = 1 << stride;
        queue.push_back(Block { node: String::new(), nth: 0, stride });
    }
    while let Some(block) = queue.pop_front() {
        for index in 0..1u64 << block.stride {
            let path = format!("{}{}", block.node, crate::table::bits(block.stride, index as u32, block.stride));
            let (hop, length) = row_entry(&hops, &path, block.node.len());
            rows.hop.push(hop);
            rows.length.push(length);
            if trie.has(&path) {
                let stride = choice.stride(&path, block.nth + 1);
                rows.link.push(next);
                rows.stride.push(stride as u8);
                next += 1 << stride;
                queue.push_back(Block { node: path, nth: block.nth + 1, stride });
            } else {
                rows.link.push(0);
                rows.stride.push(0);
            }
        }
    }
    rows
}

/// The hop of the longest entry with length above d, and at most the path's, that begins the path, and the length of
/// that entry; else 0 and 0.
fn row_entry(hops: &BTreeMap<String, u16>, path: &str, d: usize) -> (u16, u8) {
    let entry = |length: usize| hops.get(&path[..length]).map(|hop| (*hop, length as u8));
    (d + 1..=path.len()).rev().find_map(entry).unwrap_or((0, 0))
}
