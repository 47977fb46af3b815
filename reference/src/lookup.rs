//! Lookup (01, "The element rows": "Lookup starts with the floor as its best ..."; "Refusals": tests
//! 1, 2, 8, then 9), over any record and any lists.

use crate::build::{test_levels, Elements, Part, Record};
use crate::table::{refuse, test_width, Refusal, DISCARD};

/// A match with hop and reads, or no route with reads; a discard is an answer of its own with reads (02, [4]). Each
/// match or discard carries the length of the entry that won, 0 for the floor (02, [5]).
#[derive(Clone, Copy, PartialEq, Eq, Debug)]
pub enum Found {
    Match { hop: u16, length: u8, reads: u32 },
    Discard { length: u8, reads: u32 },
    NoRoute { reads: u32 },
}

impl Found {
    /// Hop 0 means no route, hop 65,535 discard.
    pub fn of(hop: u16, length: u8, reads: u32) -> Found {
        match hop {
            0 => Found::NoRoute { reads },
            DISCARD => Found::Discard { length, reads },
            _ => Found::Match { hop, length, reads },
        }
    }

    /// The number that the tablet prints as hop.
    pub fn hop(self) -> u16 {
        match self {
            Found::Match { hop, .. } => hop,
            Found::Discard { .. } => DISCARD,
            Found::NoRoute { .. } => 0,
        }
    }

    /// The number that the tablet prints as length.
    pub fn length(self) -> u8 {
        match self {
            Found::Match { length, .. } | Found::Discard { length, .. } => length,
            Found::NoRoute { .. } => 0,
        }
    }

    pub fn reads(self) -> u32 {
        match self {
            Found::Match { reads, .. } | Found::Discard { reads, .. } | Found::NoRoute { reads } => reads,
        }
    }
}

/// The clauses of refusal 9, in 01's words.
#[derive(Clone, Copy, PartialEq, Eq, PartialOrd, Ord, Debug)]
pub enum Damage {
    ListsTooShort,
    RootStrideZero,
    StrideZero,
    StrideTooLong,
    RowPastEnd,
    BlockAfterLast,
}

pub fn lookup(record: &Record, rows: &Elements, address: u32) -> Result<Found, Refusal> {
    test_width(record.width)?;
    test_levels(record.levels)?;
    if address as u64 >= 1 << record.width {
        return refuse(8, 0);
    }
    match walk(record, rows, address) {
        Ok(path) => Ok(Found::of(path.hop, path.length, path.rows.len() as u32)),
        Err(_) => refuse(9, 0),
    }
}

/// What a walk meets: the best hop, the length that stands beside it (0 for the floor), and the rows read, in order.
#[derive(Clone, PartialEq, Eq, Debug)]
pub struct Path {
    pub hop: u16,
    pub length: u8,
    pub rows: Vec<usize>,
}

/// The walk itself, after tests 1, 2 and 8. `Err` says which clause of 9 was met.
pub fn walk(record: &Record, rows: &Elements, address: u32) -> Result<Path, Damage> {
    walk_in(record, rows.part(0), address)
}

pub fn walk_in(record: &Record, rows: Part, address: u32) -> Result<Path, Damage> {
    let elements = record.elements as u64;
    if elements > rows.shortest() as u64 {
        return Err(Damage::ListsTooShort);
    }
    let mut path = Path { hop: record.floor, length: 0, rows: vec![] };
    let mut stride = record.strides[0] as u32;
    if stride == 0 {
        return if elements == 0 { Ok(path) } else { Err(Damage::RootStrideZero) };
    }
    let mut first: u64 = 0;
    let mut left = record.width;
    loop {
        if path.rows.len() as u32 == record.levels {
            return Err(Damage::BlockAfterLast);
        }
        if stride == 0 {
            return Err(Damage::StrideZero);
        }
        if stride > left {
            return Err(Damage::StrideTooLong);
        }
        left -= stride;
        let row = first + (address as u64 >> left) % (1u64 << stride);
        if row >= elements {
            return Err(Damage::RowPastEnd);
        }
        let row = row as usize;
        path.rows.push(row);
        if rows.hop[row] != 0 {
            (path.hop, path.length) = (rows.hop[row], rows.length[row]);
        }
        if rows.link[row] == 0 {
            return Ok(path);
        }
        first = rows.link[row] as u64;
        stride = rows.stride[row] as u32;
    }
}
