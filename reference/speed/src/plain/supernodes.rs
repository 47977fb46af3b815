//! The build of a tree bitmap. The sorted table is itself the binary trie: a node is the range of the entries that start with it.
//! Nodes are counted, then laid in scratch rows, then those that begin a supernode are lined up, then each of these becomes a row.

use super::Table;
use hongsamuk::{Bitmap, BitmapRowsMut};

/// Numbers in a scratch row: the links to the nodes after a 0 and after a 1 (row and one; 0 is none), the mark (the entry's hop),
/// and in row i, whichever node it is, the link of supernode i.
pub const NODE_ROW: usize = 4;
const MARK: usize = 2;
const QUEUE: usize = 3;
/// Levels of a supernode, its places, and those of its children after them.
const STRIDE: usize = 4;
const INTERNAL: usize = 15;
const PLACES: usize = 31;

#[derive(Clone, Copy, PartialEq, Eq, Debug)]
pub struct BuiltBitmap {
    pub refusal: Result<(), (u32, u64)>,
    pub record: Bitmap,
}

fn refused(number: u32, detail: usize) -> BuiltBitmap {
    BuiltBitmap { refusal: Err((number, detail as u64)), record: Bitmap::default() }
}

/// A node: its number of bits, and the entries that start with it.
#[derive(Clone, Copy)]
struct Range {
    level: u32,
    from: usize,
    to: usize,
}

impl Range {
    fn is_empty(self) -> bool {
        self.from == self.to
    }

    /// Without the entry that ends here, which can only be the first.
    fn longer(self, table: &Table) -> Range {
        let ends = u32::from(table.length[self.from]) == self.level;
        Range { from: self.from + usize::from(ends), ..self }
    }

    /// The ranges after a 0 and after a 1, of entries that all are longer.
    fn sides(self, table: &Table) -> (Range, Range) {
        let Range { level, from, to } = self;
        let bit = table.width - level - 1;
        let ones = table.value[from..to].iter().position(|value| value >> bit & 1 == 1);
        let split = ones.map_or(to, |i| from + i);
        (Range { level: level + 1, from, to: split }, Range { level: level + 1, from: split, to })
    }
}

fn nodes_in(table: &Table, range: Range) -> usize {
    if range.is_empty() {
        return 0;
    }
    let longer = range.longer(table);
    if longer.is_empty() {
        return 1;
    }
    let (zero, one) = longer.sides(table);
    1 + nodes_in(table, zero) + nodes_in(table, one)
}

/// Lays the subtrie of a range in the rows from `used` on, its own row first, and returns the next free row.
fn grow(rows: &mut [u64], table: &Table, range: Range, used: usize) -> usize {
    if range.is_empty() {
        return used;
    }
    let longer = range.longer(table);
    let mark = if longer.from == range.from { 0 } else { table.hop[range.from] };
    let (mut left, mut right, mut free) = (0, 0, used + 1);
    if !longer.is_empty() {
        let (zero, one) = longer.sides(table);
        let then = grow(rows, table, zero, free);
        left = if then == free { 0 } else { free + 1 };
        free = grow(rows, table, one, then);
        right = if free == then { 0 } else { then + 1 };
    }
    let row = &mut rows[used * NODE_ROW..][..QUEUE];
    (row[0], row[1], row[MARK]) = (left as u64, right as u64, u64::from(mark));
    free
}

/// Column c of the row at a link, 0 where there is none.
#[inline]
fn asked(rows: &[u64], link: usize, c: usize) -> usize {
    if link == 0 {
        return 0;
    }
    rows[(link - 1) * NODE_ROW + c] as usize
}

/// Puts the nodes some levels below a link at the queue's end, from left to right, and returns its length then.
fn push(rows: &mut [u64], link: usize, levels: usize, tail: usize) -> usize {
    if link == 0 {
        return tail;
    }
    if levels == 0 {
        rows[tail * NODE_ROW + QUEUE] = link as u64;
        return tail + 1;
    }
    let tail = push(rows, asked(rows, link, 0), levels - 1, tail);
    push(rows, asked(rows, link, 1), levels - 1, tail)
}

/// Lines the supernodes up breadth first, and returns how many they are.
fn line_up(rows: &mut [u64], root: usize) -> usize {
    let mut tail = push(rows, root, 0, 0);
    let mut i = 0;
    while i < tail {
        tail = push(rows, rows[i * NODE_ROW + QUEUE] as usize, STRIDE, tail);
        i += 1;
    }
    tail
}

/// The links of a supernode's places in level order, its children last.
fn places(rows: &[u64], link: usize) -> [usize; PLACES] {
    let mut places = [link; PLACES];
    for i in 1..PLACES {
        places[i] = asked(rows, places[(i - 1) / 2], (i - 1) % 2);
    }
    places
}

/// Writes the row of each supernode in the queue, and the hops.
fn write_rows(rows: &[u64], supernodes: usize, to: &mut BitmapRowsMut) {
    let (mut child, mut hop) = (1, 0);
    for i in 0..supernodes {
        let places = places(rows, rows[i * NODE_ROW + QUEUE] as usize);
        let (mut internal, mut external) = (0, 0);
        let (first_child, first_hop) = (child, hop);
        for (place, link) in places[..INTERNAL].iter().enumerate() {
            let mark = asked(rows, *link, MARK);
            if mark != 0 {
                internal |= 1 << place;
                to.hop_row[hop] = mark as u16;
                hop += 1;
            }
        }
        for (place, link) in places[INTERNAL..].iter().enumerate() {
            if *link != 0 {
                external |= 1 << place;
                child += 1;
            }
        }
        (to.internal[i], to.external[i]) = (internal, external);
        to.first_child[i] = if external == 0 { 0 } else { first_child as u32 };
        to.first_hop[i] = if internal == 0 { 0 } else { first_hop as u32 };
    }
}

#[inline(never)]
pub fn build_bitmap(table: &Table, scratch: &mut [u64], mut to: BitmapRowsMut) -> BuiltBitmap {
    if let Err(refusal) = table.check() {
        return BuiltBitmap { refusal: Err(refusal), record: Bitmap::default() };
    }
    let all = Range { level: 0, from: 0, to: table.value.len() };
    let nodes = nodes_in(table, all);
    if scratch.len() / NODE_ROW < nodes {
        return refused(6, nodes);
    }
    grow(scratch, table, all, 0);
    let supernodes = line_up(scratch, nodes.min(1));
    let room = to.internal.len().min(to.external.len()).min(to.first_child.len()).min(to.first_hop.len());
    let hops = table.value.len();
    if supernodes > room || hops > to.hop_row.len() {
        scratch.fill(0);
        return refused(7, if supernodes > room { supernodes } else { hops });
    }
    write_rows(scratch, supernodes, &mut to);
    scratch.fill(0);
    let record = Bitmap { width: table.width, supernodes: supernodes as u32, hops: hops as u32 };
    BuiltBitmap { refusal: Ok(()), record }
}
