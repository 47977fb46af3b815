//! The lookup: tests 1, 2, 8, 9, then one row a block.

use super::{LEVELS, WIDTH};
use hongsamuk::{raw, Record};

/// Number, hop, length and reads, as the header's calls tell them.
#[derive(Clone, Copy, PartialEq, Eq, Debug)]
pub struct Numbers {
    pub number: u32,
    pub hop: u16,
    pub length: u8,
    pub reads: u32,
}

impl Numbers {
    /// All of them, so that the compiler leaves nothing out.
    #[inline(always)]
    pub fn sum(self) -> u64 {
        u64::from(self.number) + u64::from(self.hop) + u64::from(self.length) + u64::from(self.reads)
    }
}

/// The four element lists.
#[derive(Clone, Copy)]
pub struct Elements<'a> {
    pub hop: &'a [u16],
    pub length: &'a [u8],
    pub link: &'a [u32],
    pub stride: &'a [u8],
}

/// Where a batch is answered.
pub struct Answers<'a> {
    pub number: &'a mut [u32],
    pub hop: &'a mut [u16],
    pub length: &'a mut [u8],
    pub reads: &'a mut [u32],
}

#[inline(always)]
pub(super) fn refused(number: u32) -> Numbers {
    Numbers { number, hop: 0, length: 0, reads: 0 }
}

pub(super) const DAMAGED: Numbers = Numbers { number: 9, hop: 0, length: 0, reads: 0 };

#[inline(always)]
pub(super) fn ended(hop: u16, length: u8, reads: u32) -> Numbers {
    Numbers { number: 0, hop, length, reads }
}

#[inline(always)]
fn walk(record: &Record, rows: Elements, address: u32) -> Numbers {
    if record.width == 0 || record.width > WIDTH {
        return refused(1);
    }
    if record.levels == 0 || record.levels > LEVELS as u32 {
        return refused(2);
    }
    if u64::from(address) >= 1 << record.width {
        return refused(8);
    }
    let elements = record.elements as usize;
    if elements > rows.hop.len().min(rows.length.len()).min(rows.link.len()).min(rows.stride.len()) {
        return DAMAGED;
    }
    let mut stride = u32::from(record.strides[0]);
    if stride == 0 {
        return if elements == 0 { ended(record.floor, 0, 0) } else { DAMAGED };
    }
    let (mut best, mut base, mut left) = ((record.floor, 0), 0, record.width);
    for reads in 0..record.levels {
        if stride == 0 || stride > left {
            return DAMAGED;
        }
        left -= stride;
        let row = base + (address as usize >> left & ((1 << stride) - 1));
        if row >= elements {
            return DAMAGED;
        }
        if rows.hop[row] != 0 {
            best = (rows.hop[row], rows.length[row]);
        }
        if rows.link[row] == 0 {
            return ended(best.0, best.1, reads + 1);
        }
        base = rows.link[row] as usize;
        stride = u32::from(rows.stride[row]);
    }
    DAMAGED
}

/// One lookup behind the header's call, as the archive's is: C's convention, the record by value, a list as pointer and length.
///
/// # Safety
/// Each pointer is good for its length.
#[inline(never)]
pub unsafe extern "C" fn lookup(
    record: Record,
    hop: *const u16,
    hops: usize,
    length: *const u8,
    lengths: usize,
    link: *const u32,
    links: usize,
    stride: *const u8,
    strides: usize,
    address: u32,
) -> raw::Answer {
    let hop = std::slice::from_raw_parts(hop, hops);
    let length = std::slice::from_raw_parts(length, lengths);
    let link = std::slice::from_raw_parts(link, links);
    let stride = std::slice::from_raw_parts(stride, strides);
    let Numbers { number, hop, length, reads } = walk(&record, Elements { hop, length, link, stride }, address);
    raw::Answer { number, hop, length, reads }
}

/// One lookup behind a call of Rust's own: record and lists by reference, so that nothing is copied.
#[inline(never)]
pub fn lookup_by_reference(record: &Record, rows: &Elements, address: u32) -> Numbers {
    walk(record, *rows, address)
}

/// Lookups one after the other: the compiler may take out of the loop what it can.
#[inline(never)]
pub fn lookup_batch(record: Record, rows: Elements, addresses: &[u32], answers: Answers) -> usize {
    let places = answers.number.iter_mut().zip(answers.hop).zip(answers.length).zip(answers.reads);
    let mut answered = 0;
    for (address, (((number, hop), length), reads)) in addresses.iter().zip(places) {
        let found = walk(&record, rows, *address);
        (*number, *hop, *length, *reads) = (found.number, found.hop, found.length, found.reads);
        answered += 1;
    }
    answered
}
