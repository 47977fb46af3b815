//! Tree bitmap arrays (02, [1], stride 4): the build and the lookup, with what each list then holds. The
//! binary trie is the set of its bit strings. Supernodes are those of its nodes that have 0, 4, 8 .. bits,
//! sorted by their number of bits, then from left to right; what a row says of other rows is found by
//! searching. A lookup tries each place of a map in turn.

use crate::lookup::Found;
use crate::table::{bits, refuse, test_width, Refusal, Table};
use std::collections::{BTreeMap, BTreeSet};

/// S: a supernode holds four levels of the binary trie.
pub const STRIDE: usize = 4;
/// The numbers of one scratch row (01 leaves the constant to the project).
pub const NODE_ROW: usize = 4;

/// The places of an internal map, level by level: the path from the supernode's first node.
const INTERNAL: [&str; 15] =
    ["", "0", "1", "00", "01", "10", "11", "000", "001", "010", "011", "100", "101", "110", "111"];
/// The places of an external map, from left to right: the path to a child.
const EXTERNAL: [&str; 16] = [
    "0000", "0001", "0010", "0011", "0100", "0101", "0110", "0111", "1000", "1001", "1010", "1011", "1100", "1101",
    "1110", "1111",
];

/// The record: both counts, and the width.
#[derive(Clone, Copy, PartialEq, Eq, Debug, Default)]
pub struct Bitmap {
    pub width: u32,
    pub supernodes: u32,
    pub hops: u32,
}

/// The four lists of supernode rows, and the list of hop rows.
#[derive(Clone, PartialEq, Eq, Debug, Default)]
pub struct Supernodes {
    pub internal: Vec<u16>,
    pub external: Vec<u16>,
    pub first_child: Vec<u32>,
    pub first_hop: Vec<u32>,
    pub hop_row: Vec<u16>,
}

impl Supernodes {
    /// The shortest list of supernode rows.
    pub fn shortest(&self) -> usize {
        self.internal.len().min(self.external.len()).min(self.first_child.len()).min(self.first_hop.len())
    }
}

/// The binary trie: every start of an entry is a node, the whole entry and length 0 included.
pub fn nodes(table: &Table) -> BTreeSet<String> {
    let mut nodes = BTreeSet::new();
    for entry in table.entries() {
        for end in 0..=entry.len() {
            nodes.insert(entry[..end].to_string());
        }
    }
    nodes
}

/// Place i of a map is bit i, the lowest first.
fn map(places: &[&str], is_there: impl Fn(&str) -> bool) -> u16 {
    (0..places.len()).filter(|&i| is_there(places[i])).map(|i| 1 << i).sum()
}

fn bit(map: u16, i: usize) -> bool {
    map >> i & 1 == 1
}

/// How many places before place i are set.
fn ones_before(map: u16, i: usize) -> u64 {
    (0..i).filter(|&j| bit(map, j)).count() as u64
}

/// All rows: supernodes breadth first, their hops in that order, then level order. First-child and
/// first-hop numbers are 0 where there is none.
pub fn lay(table: &Table, nodes: &BTreeSet<String>) -> Supernodes {
    let hops: BTreeMap<String, u16> = table.entries().into_iter().zip(table.hop.iter().copied()).collect();
    let mut order: Vec<&str> = nodes.iter().map(String::as_str).filter(|node| node.len() % STRIDE == 0).collect();
    order.sort_by_key(|node| (node.len(), *node));
    let number: BTreeMap<&str, u32> = order.iter().enumerate().map(|(i, node)| (*node, i as u32)).collect();
    let mut rows = Supernodes::default();
    for node in &order {
        let below = |place: &str| format!("{node}{place}");
        let child = |place: &&str| number.get(below(place).as_str()).copied();
        let hop = |place: &&str| hops.get(&below(place)).copied();
        let own: Vec<u16> = INTERNAL.iter().filter_map(hop).collect();
        rows.internal.push(map(&INTERNAL, |place| hop(&place).is_some()));
        rows.external.push(map(&EXTERNAL, |place| nodes.contains(&below(place))));
        rows.first_child.push(EXTERNAL.iter().find_map(child).unwrap_or(0));
        rows.first_hop.push(if own.is_empty() { 0 } else { rows.hop_row.len() as u32 });
        rows.hop_row.extend(own);
    }
    rows
}

/// Tests 1, 3, 4, 5 and 6, in order. 6: scratch has fewer whole rows than the binary trie has nodes.
fn tested(table: &Table, scratch: &[u64]) -> Result<BTreeSet<String>, Refusal> {
    table.check()?;
    let nodes = nodes(table);
    if scratch.len() / NODE_ROW < nodes.len() {
        return refuse(6, nodes.len() as u64);
    }
    Ok(nodes)
}

/// 7 is for too few supernode rows, then for too few hop rows, and its detail those needed.
fn test_room(laid: &Supernodes, to: &Supernodes) -> Result<(), Refusal> {
    let (rows, hops) = (laid.internal.len(), laid.hop_row.len());
    if rows > to.shortest() {
        return refuse(7, rows as u64);
    }
    if hops > to.hop_row.len() {
        return refuse(7, hops as u64);
    }
    Ok(())
}

fn write<T: Copy>(list: &mut [T], laid: &[T]) {
    list[..laid.len()].copy_from_slice(laid);
}

/// Refusals 1 to 6 change no list. Refusal 7 zeroes all scratch and changes no row. An accepted build
/// zeroes all scratch, writes as many rows of each list as it has and keeps later ones. A refused
/// build's record is all zeros.
pub fn build(table: &Table, scratch: &mut [u64], to: &mut Supernodes) -> (Result<(), Refusal>, Bitmap) {
    let nodes = match tested(table, scratch) {
        Err(refusal) => return (Err(refusal), Bitmap::default()),
        Ok(nodes) => nodes,
    };
    scratch.fill(0);
    let laid = lay(table, &nodes);
    if let Err(refusal) = test_room(&laid, to) {
        return (Err(refusal), Bitmap::default());
    }
    write(&mut to.internal, &laid.internal);
    write(&mut to.external, &laid.external);
    write(&mut to.first_child, &laid.first_child);
    write(&mut to.first_hop, &laid.first_hop);
    write(&mut to.hop_row, &laid.hop_row);
    let (supernodes, hops) = (laid.internal.len() as u32, laid.hop_row.len() as u32);
    (Ok(()), Bitmap { width: table.width, supernodes, hops })
}

/// The clauses of refusal 9, in 02's words.
#[derive(Clone, Copy, PartialEq, Eq, PartialOrd, Ord, Debug)]
pub enum Damage {
    RowsTooShort,
    HopsTooShort,
    SupernodePastEnd,
    HopPastEnd,
    LevelAboveWidth,
}

/// An entry that was the best so far: the place of its hop, and its length (02, [5]).
#[derive(Clone, Copy, PartialEq, Eq, Debug)]
pub struct Best {
    pub place: u64,
    pub length: u8,
}

/// What a lookup meets: the supernodes it visits, in order, and each entry that was the best so far. The last
/// of these is the winner.
#[derive(Clone, PartialEq, Eq, Debug, Default)]
pub struct Path {
    pub visited: Vec<usize>,
    pub bests: Vec<Best>,
}

/// Tests 1, 8, then 9. A winning hop 0 is no route, 65,535 a discard (02, [4]).
pub fn lookup(record: &Bitmap, rows: &Supernodes, address: u32) -> Result<Found, Refusal> {
    test_width(record.width)?;
    if address as u64 >= 1 << record.width {
        return refuse(8, 0);
    }
    match walk(record, rows, address) {
        Ok(path) => {
            let winner = path.bests.last();
            let (hop, length) = winner.map_or((0, 0), |best| (rows.hop_row[best.place as usize], best.length));
            Ok(Found::of(hop, length, path.visited.len() as u32))
        }
        Err(_) => refuse(9, 0),
    }
}

/// The longest entry of a supernode that the bits left of the address, at most four, start with.
fn best(rows: &Supernodes, at: usize, next: &str, level: usize) -> Option<Best> {
    let internal = rows.internal[at];
    let matches = |place: &str| next.starts_with(place);
    let longest = (0..INTERNAL.len()).rev().find(|&i| bit(internal, i) && matches(INTERNAL[i]))?;
    let place = rows.first_hop[at] as u64 + ones_before(internal, longest);
    Some(Best { place, length: (level + INTERNAL[longest].len()) as u8 })
}

/// The walk itself, after tests 1 and 8. `Err` says which clause of 9 was met.
pub fn walk(record: &Bitmap, rows: &Supernodes, address: u32) -> Result<Path, Damage> {
    if record.supernodes as u64 > rows.shortest() as u64 {
        return Err(Damage::RowsTooShort);
    }
    if record.hops as u64 > rows.hop_row.len() as u64 {
        return Err(Damage::HopsTooShort);
    }
    let mut path = Path::default();
    if record.supernodes == 0 {
        return Ok(path);
    }
    let width = record.width as usize;
    // Bits past the width count as 0.
    let address = bits(record.width, address, record.width) + "0000";
    let (mut level, mut number) = (0, 0);
    loop {
        if number >= record.supernodes as u64 {
            return Err(Damage::SupernodePastEnd);
        }
        let at = number as usize;
        path.visited.push(at);
        let (external, next) = (rows.external[at], &address[level..level + STRIDE]);
        path.bests.extend(best(rows, at, &next[..STRIDE.min(width - level)], level));
        let branch = EXTERNAL.iter().position(|place| *place == next).expect("four bits");
        if !bit(external, branch) {
            break;
        }
        level += STRIDE;
        if level > width {
            return Err(Damage::LevelAboveWidth);
        }
        number = rows.first_child[at] as u64 + ones_before(external, branch);
    }
    if path.bests.last().is_some_and(|winner| winner.place >= record.hops as u64) {
        return Err(Damage::HopPastEnd);
    }
    Ok(path)
}
