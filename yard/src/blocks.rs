//! The blocks of a build in elements, read off its rows: what a picture shows of them, and the rows that a lookup reads.

use std::collections::VecDeque;

use hongsamuk::WIDTH;

use crate::arrays::Elements;
use crate::dotted::Prefix;

/// Neighbouring rows that say the same; a row with a link or one that is read stands alone.
#[derive(PartialEq, Eq, Debug)]
pub struct Run {
    /// The first row and the last, counted in the block.
    pub first: usize,
    pub last: usize,
    pub hop: u16,
    pub length: u8,
    /// The number of the block that it links to.
    pub child: Option<usize>,
}

#[derive(Debug)]
pub struct Block {
    /// From 1.
    pub level: usize,
    pub stride: u8,
    /// The element row of its first row.
    pub start: usize,
    /// The bits that lead to it.
    pub under: Prefix,
    pub runs: Vec<Run>,
}

/// All blocks, in the order of their rows: breadth first. The rows must be an accepted build's. Those of the path, which are counted from
/// the first of all, stand alone.
pub fn blocks(elements: &Elements, path: &[usize]) -> Vec<Block> {
    let mut blocks: Vec<Block> = Vec::new();
    let mut waiting = VecDeque::new();
    if elements.record.elements > 0 {
        waiting.push_back((0, elements.record.strides[0], 1, Prefix::of(0, 0)));
    }
    let mut numbered = waiting.len();
    while let Some((start, stride, level, under)) = waiting.pop_front() {
        let mut runs: Vec<Run> = Vec::new();
        for row in 0..1usize << stride {
            let at = start + row;
            let mut run =
                Run { first: row, last: row, hop: elements.hop[at], length: elements.length[at], child: None };
            if elements.link[at] != 0 {
                run.child = Some(numbered);
                numbered += 1;
                waiting.push_back((
                    elements.link[at] as usize,
                    elements.stride[at],
                    level + 1,
                    below(under, stride, row),
                ));
            }
            join(&mut runs, run, path.contains(&at) || path.contains(&at.wrapping_sub(1)));
        }
        blocks.push(Block { level, stride, start, under, runs });
    }
    blocks
}

/// Adds a run, which goes on with the last one where both say the same and need not stand apart.
fn join(runs: &mut Vec<Run>, run: Run, apart: bool) {
    match runs.last_mut() {
        Some(last)
            if !apart && last.child.or(run.child).is_none() && (last.hop, last.length) == (run.hop, run.length) =>
        {
            last.last = run.last
        }
        _ => runs.push(run),
    }
}

/// The bits that lead to the child of a row.
fn below(under: Prefix, stride: u8, row: usize) -> Prefix {
    let length = under.length() + stride;
    Prefix::of(under.first() | ((row as u64) << (WIDTH as u8 - length)) as u32, length)
}

/// The element rows that a lookup of the address reads in an accepted build, in order.
pub fn path(elements: &Elements, address: u32) -> Vec<usize> {
    let mut path = Vec::new();
    let (mut start, mut stride, mut depth) = (0, elements.record.strides[0], 0);
    while stride != 0 {
        let bits = (u64::from(address) << (32 + depth)) >> (64 - stride);
        let at = start + bits as usize;
        path.push(at);
        depth += stride;
        (start, stride) = (elements.link[at] as usize, elements.stride[at]);
    }
    path
}
