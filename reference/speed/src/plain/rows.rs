//! The 1-bit trie in scratch rows: links, marks, depth, and the costs and strides for each number of levels left. A link is a row
//! and one; 0 is none. A mark is an entry's hop with its length above it.

use super::{Table, LEVELS, WIDTH};

/// Columns: the marks after a 0 and a 1, the depth, the costs and the strides; the links are columns 0 and 1.
pub const MARK: usize = 2;
pub const DEPTH: usize = 4;
pub const COST: usize = 8;
pub const STRIDE: usize = COST + LEVELS;
/// Numbers in a row.
pub const ROW: usize = STRIDE + LEVELS;

/// Column c of the row at a link, 0 where there is none.
#[inline]
pub fn asked(rows: &[u64], link: usize, c: usize) -> usize {
    if link == 0 {
        return 0;
    }
    rows[(link - 1) * ROW + c] as usize
}

/// The depth of a row is at least so much.
fn raise(rows: &mut [u64], at: usize, depth: usize) {
    let deep = &mut rows[at * ROW + DEPTH];
    *deep = (*deep).max(depth as u64);
}

/// The bits of a mark below the length.
pub const HOP_BITS: usize = 16;

/// Puts the last `bits` bits of a value below the root, with its hop and its length for a mark. Returns the number of rows then used.
fn insert(rows: &mut [u64], mut used: usize, value: usize, bits: usize, hop: u16) -> usize {
    let mut at = 0;
    for left in (1..bits).rev() {
        raise(rows, at, left + 1);
        let side = value >> left & 1;
        let link = rows[at * ROW + side] as usize;
        if link == 0 {
            used += 1;
            rows[at * ROW + side] = used as u64;
            at = used - 1;
        } else {
            at = link - 1;
        }
    }
    raise(rows, at, 1);
    rows[at * ROW + MARK + (value & 1)] = (bits as u64) << HOP_BITS | u64::from(hop);
    used
}

/// Makes the trie in rows that are all 0, counts its nodes level by level, and returns the root's link.
pub fn make(rows: &mut [u64], counts: &mut [u64; WIDTH as usize], table: &Table) -> usize {
    let mut used = 0;
    for i in 0..table.value.len() {
        let length = table.length[i] as usize;
        if length > 0 {
            let value = table.value[i] as usize >> (table.width as usize - length);
            let grown = insert(rows, used.max(1), value, length, table.hop[i]);
            for count in &mut counts[length - (grown - used)..length] {
                *count += 1;
            }
            used = grown;
        }
    }
    used.min(1)
}
