//! The build: tests 1 to 7, the choice, the rows.

use super::builder::Source;
use super::rows::{asked, make, COST, ROW, STRIDE};
use super::{costs, fixed, Table, LEVELS};
use hongsamuk::{Kind, Record};

pub const SCRATCH_ROW: usize = ROW;
/// The most elements.
const ELEMENTS: u64 = 16_777_216;

/// Room for the element rows.
pub struct Lent<'a> {
    pub hop: &'a mut [u16],
    pub length: &'a mut [u8],
    pub link: &'a mut [u32],
    pub stride: &'a mut [u8],
}

#[derive(Clone, Copy, PartialEq, Eq, Debug)]
pub struct Built {
    pub refusal: Result<(), (u32, u64)>,
    pub record: Record,
}

struct Plan {
    cost: u64,
    strides: [u8; LEVELS],
    plan: [u8; LEVELS],
    root: usize,
}

fn tested(table: &Table, levels: u32, words: usize) -> Result<(), (u32, u64)> {
    if table.width == 0 || table.width > super::WIDTH {
        return Err((1, 0));
    }
    if levels == 0 || levels > LEVELS as u32 {
        return Err((2, 0));
    }
    table.check()?;
    let nodes = table.nodes();
    if words / ROW < nodes {
        return Err((6, nodes as u64));
    }
    Ok(())
}

fn planned(kind: Kind, levels: usize, table: &Table, scratch: &mut [u64]) -> Plan {
    scratch.fill(0);
    let mut nodes = [0; super::WIDTH as usize];
    let root = make(scratch, &mut nodes, table);
    match kind {
        Kind::Fixed => {
            let (cost, strides) = fixed::fixed_choice(table, &nodes, levels);
            Plan { cost, strides, plan: strides, root }
        }
        Kind::Variable => {
            costs::settle_all(scratch, root, levels);
            let mut strides = [0; LEVELS];
            strides[0] = asked(scratch, root, STRIDE - 1 + levels) as u8;
            Plan { cost: asked(scratch, root, COST - 1 + levels) as u64, strides, plan: [0; LEVELS], root }
        }
    }
}

#[inline(never)]
pub fn build(kind: Kind, levels: u32, table: &Table, scratch: &mut [u64], mut to: Lent) -> Built {
    if let Err(refusal) = tested(table, levels, scratch.len()) {
        return Built { refusal: Err(refusal), record: Record::default() };
    }
    let k = levels as usize;
    let Plan { cost, strides, plan, root } = planned(kind, k, table, scratch);
    let room = to.hop.len().min(to.length.len()).min(to.link.len()).min(to.stride.len()) as u64;
    if cost > room || cost > ELEMENTS {
        scratch.fill(0);
        return Built { refusal: Err((7, cost)), record: Record::default() };
    }
    Source { rows: scratch, plan: &plan[..k] }.lay(root, k, &mut to);
    scratch.fill(0);
    let record = Record { width: table.width, levels, elements: cost as u32, floor: table.floor(), strides };
    Built { refusal: Ok(()), record }
}
