//! The classification of two addresses: tests 1, 2, 8, 9, the destination's walk, then source tries until one matches.

use super::walk::Elements;
use super::{LEVELS, WIDTH};
use hongsamuk::{raw, RuleRecord, TRIE_ROW, VISITS};

/// The rows of one trie, as many in each list. No verdict asks for a length.
struct Rows<'a> {
    place: usize,
    hop: &'a [u16],
    link: &'a [u32],
    stride: &'a [u8],
}

impl<'a> Rows<'a> {
    #[inline(always)]
    fn of(rows: Elements<'a>, place: usize, elements: usize) -> Rows<'a> {
        let end = place + elements;
        Rows { place, hop: &rows.hop[..end], link: &rows.link[..end], stride: &rows.stride[..end] }
    }

    /// The latest hop on the address's path, else the floor, and the blocks read; none where the path is damaged.
    #[inline(always)]
    fn follow(&self, width: u32, levels: u32, root: u32, floor: u16, address: u32) -> Option<(u16, u32)> {
        if root == 0 {
            return (self.hop.len() == self.place).then_some((floor, 0));
        }
        let (mut best, mut base, mut stride, mut left) = (floor, self.place, root, width);
        for reads in 1..=levels {
            if stride == 0 || stride > left {
                return None;
            }
            left -= stride;
            let row = base + (address as usize >> left & ((1 << stride) - 1));
            if row >= self.hop.len() {
                return None;
            }
            if self.hop[row] != 0 {
                best = self.hop[row];
            }
            if self.link[row] == 0 {
                return Some((best, reads));
            }
            base = self.place + self.link[row] as usize;
            stride = u32::from(self.stride[row]);
        }
        None
    }
}

#[inline(always)]
fn refused(number: u32) -> raw::Verdict {
    raw::Verdict { number, action: 0, reads: 0 }
}

#[inline(always)]
fn ended(action: u16, reads: u32) -> raw::Verdict {
    raw::Verdict { number: 0, action, reads }
}

/// The source tries from a number on; none where one of them is damaged, or one too many is called for.
#[inline(always)]
fn visit(
    record: &RuleRecord,
    rows: Elements,
    list: &[u32],
    source: u32,
    first: u16,
    before: u32,
) -> Option<raw::Verdict> {
    let (tries, _) = list.as_chunks::<TRIE_ROW>();
    let (mut number, mut reads, mut left) = (usize::from(first), before, VISITS);
    while number != 0 {
        left = left.checked_sub(1)?;
        let [floor, root, place, elements, next] = *tries.get(number - 1)?;
        if u64::from(place) + u64::from(elements) > u64::from(record.elements) {
            return None;
        }
        let own = Rows::of(rows, place as usize, elements as usize);
        let (action, read) = own.follow(record.dest.width, record.dest.levels, root, floor as u16, source)?;
        reads += read;
        if action != 0 {
            return Some(ended(action, reads));
        }
        number = next as usize;
    }
    Some(ended(0, reads))
}

#[inline(always)]
fn judge(record: &RuleRecord, rows: Elements, list: &[u32], dest: u32, source: u32) -> raw::Verdict {
    let own = &record.dest;
    if own.width == 0 || own.width > WIDTH {
        return refused(1);
    }
    if own.levels == 0 || own.levels > LEVELS as u32 {
        return refused(2);
    }
    if u64::from(dest.max(source)) >= 1 << own.width {
        return refused(8);
    }
    let shortest = rows.hop.len().min(rows.length.len()).min(rows.link.len()).min(rows.stride.len());
    if record.elements as usize > shortest || own.elements > record.elements {
        return refused(9);
    }
    Rows::of(rows, 0, own.elements as usize)
        .follow(own.width, own.levels, u32::from(own.strides[0]), own.floor, dest)
        .and_then(|(first, before)| visit(record, rows, list, source, first, before))
        .unwrap_or(refused(9))
}

/// One classification behind the header's call, as the archive's is: C's convention, the record by value, a list as pointer and length.
///
/// # Safety
/// Each pointer is good for its length.
#[inline(never)]
pub unsafe extern "C" fn classify(
    record: RuleRecord,
    hop: *const u16,
    hops: usize,
    length: *const u8,
    lengths: usize,
    link: *const u32,
    links: usize,
    stride: *const u8,
    strides: usize,
    list: *const u32,
    numbers: usize,
    dest: u32,
    source: u32,
) -> raw::Verdict {
    let hop = std::slice::from_raw_parts(hop, hops);
    let length = std::slice::from_raw_parts(length, lengths);
    let link = std::slice::from_raw_parts(link, links);
    let stride = std::slice::from_raw_parts(stride, strides);
    let list = std::slice::from_raw_parts(list, numbers);
    judge(&record, Elements { hop, length, link, stride }, list, dest, source)
}
