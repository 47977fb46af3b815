//! Lookup arrays for a gateway, proved: the safe calls for Rust, over the archive for C (`include/hongsamuk.h`).
//!
//! Every call takes any numbers and any lists, damaged ones included, and refuses by number what it cannot take; nothing has to be
//! checked first. All lists are lent: no call allocates or keeps anything. The refusal numbers:
//!
//! | Number | Refused because | Detail |
//! |---|---|---|
//! | 1 | the width is 0 or above 32 | 0 |
//! | 2 | the level limit is 0 or above 32 | 0 |
//! | 3 | lists of unequal length, more than 65,536 entries or more than 1,024 rules | 0 |
//! | 4 | an entry is no prefix of that width, or has hop 0 or one above `links` that is not 65,535; a rule has such a destination, source or action | its index |
//! | 5 | an entry or rule does not stand above the one before | its index |
//! | 6 | scratch has too few whole rows for the table's trie, or for all tries of the rules | the rows needed |
//! | 7 | too little room for elements, or above 16,777,216; of a bitmap for supernodes, then hops; of rules then for the list | those needed, or list rows |
//! | 8 | the address is not below 2^width, or either of two | 0 |
//! | 9 | a damaged record, damaged elements, a damaged bitmap or a damaged list of tries | 0 |
//! | 10 | a prefix that is asked about is malformed | 0 |

pub mod raw;
mod rules;

pub use rules::{build_rules, classify, BuiltRules, RuleRecord, Rules, Verdict};

/// The most bits of an address.
pub const WIDTH: u32 = 32;
/// The most levels.
pub const LEVELS: usize = 32;
/// The most entries of a table.
pub const ENTRIES: usize = 65_536;
/// The hop of a route that discards packets: an entry like any other.
pub const DISCARD: u16 = 65_535;
/// The most links of a gateway; with it no hop is refused but 0.
pub const LINKS: u16 = 65_535;
/// The most elements of a build.
pub const ELEMENTS: u32 = 16_777_216;
/// Numbers in a scratch row of a chooser, or of a build of elements or of rules; it needs one row for each node of the table's 1-bit trie,
/// of rules for each node of all their tries.
pub const SCRATCH_ROW: usize = 72;
/// Numbers in a scratch row of a bitmap's build; it needs one row for each node of the table's binary trie: for every start of an
/// entry, the whole entry and length 0 included.
pub const NODE_ROW: usize = 4;
/// The most rules.
pub const RULES: usize = 1024;
/// Numbers in a row of the list of tries; a build of rules needs one row for each destination.
pub const TRIE_ROW: usize = 5;
/// The most source tries that a classification visits: with the destinations' it reads at most `VISITS` + 1 times as many blocks as
/// there are levels.
pub const VISITS: u32 = 33;

/// What a call decides before it answers.
#[derive(Clone, Copy, PartialEq, Eq, Debug)]
pub enum Outcome {
    Accepted,
    Refused { number: u32, detail: u64 },
}

/// The two kinds of stride choice: one stride a level, or one a block.
#[derive(Clone, Copy, PartialEq, Eq, Debug)]
pub enum Kind {
    Fixed,
    Variable,
}

/// How many leading bits two prefixes share.
#[derive(Clone, Copy, PartialEq, Eq, Debug)]
pub enum Shared {
    Length(u32),
    Refused { number: u32 },
}

/// The entries that start with a prefix.
#[derive(Clone, Copy, PartialEq, Eq, Debug)]
pub enum Span {
    Part { index: u32, count: u32 },
    Refused { number: u32, detail: u64 },
}

/// What a lookup answers. `length` is that of the prefix that won: how many bits it has, 0 for the floor.
#[derive(Clone, Copy, PartialEq, Eq, Debug)]
pub enum Answer {
    Match {
        hop: u16,
        length: u8,
        reads: u32,
    },
    /// The longest prefix that begins the address discards.
    Discard {
        length: u8,
        reads: u32,
    },
    /// No prefix begins the address.
    NoRoute {
        reads: u32,
    },
    Refused {
        number: u32,
    },
}

impl Answer {
    /// The hop of the prefix that won, `DISCARD` for a discard, and its length; none where there is no route, or the lookup was refused.
    pub fn won(self) -> Option<(u16, u8)> {
        match self {
            Answer::Match { hop, length, .. } => Some((hop, length)),
            Answer::Discard { length, .. } => Some((DISCARD, length)),
            Answer::NoRoute { .. } | Answer::Refused { .. } => None,
        }
    }
}

/// What a build hands back beside its element rows; all of it is lent to each lookup. Any numbers may stand in it.
#[repr(C)]
#[derive(Clone, Copy, PartialEq, Eq, Debug, Default)]
pub struct Record {
    pub width: u32,
    pub levels: u32,
    /// E: rows 0 to E - 1 are the build's.
    pub elements: u32,
    /// The hop of the entry of length 0, else 0.
    pub floor: u16,
    /// Unused places are 0; a variable build fills the first only.
    pub strides: [u8; LEVELS],
}

/// What a bitmap's build hands back beside its rows; all of it is lent to each lookup. Any numbers may stand in it.
#[repr(C)]
#[derive(Clone, Copy, PartialEq, Eq, Debug, Default)]
pub struct Bitmap {
    pub width: u32,
    /// Rows 0 to `supernodes` - 1 of the four lists of a bitmap are the build's.
    pub supernodes: u32,
    /// Hop rows 0 to `hops` - 1 are the build's: as many as the table has entries.
    pub hops: u32,
}

/// A table, lent: the width, the number of links, and value, length and hop of each entry.
#[derive(Clone, Copy, PartialEq, Eq, Debug)]
pub struct Table<'a> {
    pub width: u32,
    /// The number of links of the gateway: an entry's hop is at most that, or [`DISCARD`]. With [`LINKS`] no hop is refused but 0.
    pub links: u16,
    pub value: &'a [u32],
    pub length: &'a [u8],
    pub hop: &'a [u16],
}

/// A prefix: its bits, leftmost first in a number of the table's width, and how many they are.
#[derive(Clone, Copy, PartialEq, Eq, Debug)]
pub struct Prefix {
    pub value: u32,
    pub bits: u8,
}

/// Element rows to read.
#[derive(Clone, Copy, PartialEq, Eq, Debug)]
pub struct Rows<'a> {
    pub hop: &'a [u16],
    /// The length of the entry whose hop the row has, 0 where that is 0.
    pub length: &'a [u8],
    pub link: &'a [u32],
    pub stride: &'a [u8],
}

/// Room for element rows.
#[derive(PartialEq, Eq, Debug)]
pub struct RowsMut<'a> {
    pub hop: &'a mut [u16],
    /// The length of the entry whose hop the row has, 0 where that is 0.
    pub length: &'a mut [u8],
    pub link: &'a mut [u32],
    pub stride: &'a mut [u8],
}

/// The rows of a tree bitmap, to read: four lists of supernodes, and the hops.
#[derive(Clone, Copy, PartialEq, Eq, Debug)]
pub struct BitmapRows<'a> {
    /// Which entries end in the supernode's four levels, level by level, the lowest bit first.
    pub internal: &'a [u16],
    /// Which children it has, four bits further on, from left to right, the lowest bit first.
    pub external: &'a [u16],
    /// The number of the first of its children, which lie in a row; 0 where it has none.
    pub first_child: &'a [u32],
    /// The hop row of the first of its entries, which lie in the order of the internal map; 0 where it has none.
    pub first_hop: &'a [u32],
    pub hop_row: &'a [u16],
}

/// Room for the rows of a tree bitmap.
#[derive(PartialEq, Eq, Debug)]
pub struct BitmapRowsMut<'a> {
    pub internal: &'a mut [u16],
    pub external: &'a mut [u16],
    pub first_child: &'a mut [u32],
    pub first_hop: &'a mut [u32],
    pub hop_row: &'a mut [u16],
}

/// Room for the answers of a batch: number (0: accepted), hop (0: no route, or refused; [`DISCARD`]: discard), length (0: the
/// floor's, no route, or refused) and reads of each address.
#[derive(PartialEq, Eq, Debug)]
pub struct AnswersMut<'a> {
    pub number: &'a mut [u32],
    pub hop: &'a mut [u16],
    pub length: &'a mut [u8],
    pub reads: &'a mut [u32],
}

/// What a chooser answers; refused, cost and strides are 0.
#[derive(Clone, Copy, PartialEq, Eq, Debug)]
pub struct Chosen {
    pub outcome: Outcome,
    pub cost: u64,
    pub strides: [u8; LEVELS],
}

/// What a build answers; refused, the record is all zeros.
#[derive(Clone, Copy, PartialEq, Eq, Debug)]
pub struct Built {
    pub outcome: Outcome,
    pub record: Record,
}

/// What a bitmap's build answers; refused, the record is all zeros.
#[derive(Clone, Copy, PartialEq, Eq, Debug)]
pub struct BuiltBitmap {
    pub outcome: Outcome,
    pub record: Bitmap,
}

fn outcome(number: u32, detail: u64) -> Outcome {
    match number {
        0 => Outcome::Accepted,
        _ => Outcome::Refused { number, detail },
    }
}

impl From<raw::Answer> for Answer {
    #[inline]
    fn from(answer: raw::Answer) -> Answer {
        match answer {
            raw::Answer { number: 0, hop: 0, reads, .. } => Answer::NoRoute { reads },
            raw::Answer { number: 0, hop: DISCARD, length, reads } => Answer::Discard { length, reads },
            raw::Answer { number: 0, hop, length, reads } => Answer::Match { hop, length, reads },
            raw::Answer { number, .. } => Answer::Refused { number },
        }
    }
}

/// Whether the lists are a table for a gateway with so many links: tests 1, 3, 4, 5.
pub fn check(table: Table) -> Outcome {
    let Table { width, links, value, length, hop } = table;
    // SAFETY: pointers and lengths are those of slices, which the call only reads.
    let checked = unsafe {
        raw::hongsamuk_check(
            width,
            links,
            value.as_ptr(),
            value.len(),
            length.as_ptr(),
            length.len(),
            hop.as_ptr(),
            hop.len(),
        )
    };
    outcome(checked.number, checked.detail)
}

/// How many leading bits two prefixes share: tests 1, then 10.
pub fn shared_length(width: u32, a: Prefix, b: Prefix) -> Shared {
    // SAFETY: numbers only.
    let shared = unsafe { raw::hongsamuk_shared_length(width, a.value, a.bits, b.value, b.bits) };
    match shared.number {
        0 => Shared::Length(shared.bits),
        number => Shared::Refused { number },
    }
}

/// The first index and the number of the entries that start with a prefix; where there are none, count 0 at the index where the
/// prefix itself would stand: tests 1, 3, 4, 5, 10.
pub fn zone_span(table: Table, prefix: Prefix) -> Span {
    let Table { width, links, value, length, hop } = table;
    // SAFETY: pointers and lengths are those of slices, which the call only reads.
    let span = unsafe {
        raw::hongsamuk_zone_span(
            width,
            links,
            value.as_ptr(),
            value.len(),
            length.as_ptr(),
            length.len(),
            hop.as_ptr(),
            hop.len(),
            prefix.value,
            prefix.bits,
        )
    };
    match span.number {
        0 => Span::Part { index: span.index, count: span.count },
        number => Span::Refused { number, detail: span.detail },
    }
}

/// The part of the value list with those entries, the caller's own memory; refused, the empty part at 0.
pub fn zone<'a>(table: Table<'a>, prefix: Prefix) -> &'a [u32] {
    match zone_span(table, prefix) {
        Span::Part { index, count } => &table.value[index as usize..][..count as usize],
        Span::Refused { .. } => &table.value[..0],
    }
}

/// The least number of elements of any choice of strides of the kind with at most `levels` levels, and the strides of a build:
/// tests 1 to 6. Accepted, all of scratch is 0; refused, it is as it was.
pub fn choose(kind: Kind, levels: u32, table: Table, scratch: &mut [u64]) -> Chosen {
    let call: raw::Choose = match kind {
        Kind::Fixed => raw::hongsamuk_choose_fixed,
        Kind::Variable => raw::hongsamuk_choose_variable,
    };
    let Table { width, links, value, length, hop } = table;
    // SAFETY: pointers and lengths are those of slices; the call writes scratch only, which nobody else borrows.
    let chosen = unsafe {
        call(
            width,
            levels,
            links,
            value.as_ptr(),
            value.len(),
            length.as_ptr(),
            length.len(),
            hop.as_ptr(),
            hop.len(),
            scratch.as_mut_ptr(),
            scratch.len(),
        )
    };
    Chosen { outcome: outcome(chosen.number, chosen.detail), cost: chosen.cost, strides: chosen.strides }
}

/// Turns a table into a record and element rows, with the least number of elements E of the kind: tests 1 to 7, where 7 counts the
/// shortest of the four lists. Accepted, all of scratch is 0, rows 0 to E - 1 are the build's, and later rows are as they were.
/// Refused by 7, all of scratch is 0 and no element changes; refused by 1 to 6, no list changes.
pub fn build(kind: Kind, levels: u32, table: Table, scratch: &mut [u64], rows: RowsMut) -> Built {
    let call: raw::Build = match kind {
        Kind::Fixed => raw::hongsamuk_build_fixed,
        Kind::Variable => raw::hongsamuk_build_variable,
    };
    let Table { width, links, value, length, hop } = table;
    // SAFETY: pointers and lengths are those of slices; the call writes scratch and rows only, which nobody else borrows.
    let built = unsafe {
        call(
            width,
            levels,
            links,
            value.as_ptr(),
            value.len(),
            length.as_ptr(),
            length.len(),
            hop.as_ptr(),
            hop.len(),
            scratch.as_mut_ptr(),
            scratch.len(),
            rows.hop.as_mut_ptr(),
            rows.hop.len(),
            rows.length.as_mut_ptr(),
            rows.length.len(),
            rows.link.as_mut_ptr(),
            rows.link.len(),
            rows.stride.as_mut_ptr(),
            rows.stride.len(),
        )
    };
    Built { outcome: outcome(built.number, built.detail), record: built.record }
}

/// One lookup: tests 1, 2, 8, 9, where 9 counts the shortest of the four lists. Over a record and rows that one accepted build left
/// together: a match with the hop and the length of the table's longest prefix that begins the address, a discard with its length
/// where that prefix discards, or no route where there is none. Over any other: by the latest hop that is not 0 of the rows on the
/// address's path with the length of its row, else by the floor with length 0, as they are found there.
#[inline]
pub fn lookup(record: &Record, rows: Rows, address: u32) -> Answer {
    // SAFETY: pointers and lengths are those of slices, which the call only reads.
    let answer = unsafe {
        raw::hongsamuk_lookup(
            *record,
            rows.hop.as_ptr(),
            rows.hop.len(),
            rows.length.as_ptr(),
            rows.length.len(),
            rows.link.as_ptr(),
            rows.link.len(),
            rows.stride.as_ptr(),
            rows.stride.len(),
            address,
        )
    };
    answer.into()
}

/// Lookups one after the other: answers as many addresses as the shortest of the address list and the four answer lists has, keeps
/// the later places of these lists, and returns how many.
pub fn lookup_batch(record: &Record, rows: Rows, addresses: &[u32], answers: AnswersMut) -> usize {
    // SAFETY: pointers and lengths are those of slices; the call writes the answer lists only, which nobody else borrows.
    unsafe {
        raw::hongsamuk_lookup_batch(
            *record,
            rows.hop.as_ptr(),
            rows.hop.len(),
            rows.length.as_ptr(),
            rows.length.len(),
            rows.link.as_ptr(),
            rows.link.len(),
            rows.stride.as_ptr(),
            rows.stride.len(),
            addresses.as_ptr(),
            addresses.len(),
            answers.number.as_mut_ptr(),
            answers.number.len(),
            answers.hop.as_mut_ptr(),
            answers.hop.len(),
            answers.length.as_mut_ptr(),
            answers.length.len(),
            answers.reads.as_mut_ptr(),
            answers.reads.len(),
        )
    }
}

/// Turns a table into a tree bitmap, with a supernode for each start of an entry that has 0, 4, 8 .. bits: tests 1, 3 to 7.
/// Accepted, all of scratch is 0, as many rows of the four lists and as many hop rows as the record says are the build's, and later
/// rows are as they were. Refused by 7, all of scratch is 0 and no row changes; refused by 1 to 6, no list changes.
pub fn build_bitmap(table: Table, scratch: &mut [u64], rows: BitmapRowsMut) -> BuiltBitmap {
    let Table { width, links, value, length, hop } = table;
    // SAFETY: pointers and lengths are those of slices; the call writes scratch and rows only, which nobody else borrows.
    let built = unsafe {
        raw::hongsamuk_build_bitmap(
            width,
            links,
            value.as_ptr(),
            value.len(),
            length.as_ptr(),
            length.len(),
            hop.as_ptr(),
            hop.len(),
            scratch.as_mut_ptr(),
            scratch.len(),
            rows.internal.as_mut_ptr(),
            rows.internal.len(),
            rows.external.as_mut_ptr(),
            rows.external.len(),
            rows.first_child.as_mut_ptr(),
            rows.first_child.len(),
            rows.first_hop.as_mut_ptr(),
            rows.first_hop.len(),
            rows.hop_row.as_mut_ptr(),
            rows.hop_row.len(),
        )
    };
    BuiltBitmap { outcome: outcome(built.number, built.detail), record: built.record }
}

/// One lookup in a tree bitmap: tests 1, 8, 9. Over a record and rows that one accepted build left together: a match with the hop
/// and the length of the table's longest prefix that begins the address, a discard with its length where that prefix discards, or no
/// route where there is none. Over any other: by the hop, as it is found there, and the length of the longest entry that the internal
/// maps on the address's path have; no route where that hop is 0 or there is no such entry. Reads are the supernodes read.
#[inline]
pub fn lookup_bitmap(record: &Bitmap, rows: BitmapRows, address: u32) -> Answer {
    // SAFETY: pointers and lengths are those of slices, which the call only reads.
    let answer = unsafe {
        raw::hongsamuk_lookup_bitmap(
            *record,
            rows.internal.as_ptr(),
            rows.internal.len(),
            rows.external.as_ptr(),
            rows.external.len(),
            rows.first_child.as_ptr(),
            rows.first_child.len(),
            rows.first_hop.as_ptr(),
            rows.first_hop.len(),
            rows.hop_row.as_ptr(),
            rows.hop_row.len(),
            address,
        )
    };
    answer.into()
}
