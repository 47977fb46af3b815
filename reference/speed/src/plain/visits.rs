//! The lookup in a tree bitmap: tests 1, 8, 9, then one row a supernode, with no loop inside one.

use super::walk::{ended, refused, Numbers, DAMAGED};
use super::WIDTH;
use hongsamuk::{Bitmap, BitmapRows};

/// For each 4-bit path the places of an internal map that lie on it: one in each of its four levels.
const MASKS: [u16; 16] = {
    let mut masks = [0; 16];
    let mut path = 0;
    while path < 16 {
        masks[path] = 1 | 1 << (1 + (path >> 3)) | 1 << (3 + (path >> 2)) | 1 << (7 + (path >> 1));
        path += 1;
    }
    masks
};
/// The places of entries of at most 0, 1, 2 and 3 bits more than the supernode's own.
const LIMITS: [u16; 4] = [0x1, 0x7, 0x7f, 0x7fff];

/// How many bits of a map stand before a place.
#[inline(always)]
fn ones_before(map: u16, place: u32) -> usize {
    (map & ((1 << place) - 1)).count_ones() as usize
}

/// The hop row of the longest entry that a supernode has on a path, and its length; so many bits are left at its level.
#[inline(always)]
fn longest(rows: BitmapRows, at: usize, path: u32, width: u32, left: u32) -> Option<(usize, u32)> {
    let internal = rows.internal[at];
    let on = internal & MASKS[path as usize] & LIMITS[left.min(3) as usize];
    if on == 0 {
        return None;
    }
    let place = u16::BITS - 1 - on.leading_zeros();
    Some((rows.first_hop[at] as usize + ones_before(internal, place), width - left + (place + 1).ilog2()))
}

/// The answer by a winner's hop; hop 0 has no length.
#[inline(always)]
fn won(hop: u16, length: u32, reads: u32) -> Numbers {
    ended(hop, if hop == 0 { 0 } else { length as u8 }, reads)
}

#[inline(always)]
fn visit(record: &Bitmap, rows: BitmapRows, address: u32) -> Numbers {
    if record.width == 0 || record.width > WIDTH {
        return refused(1);
    }
    if u64::from(address) >= 1 << record.width {
        return refused(8);
    }
    let (supernodes, hops) = (record.supernodes as usize, record.hops as usize);
    let shortest = rows.internal.len().min(rows.external.len()).min(rows.first_child.len()).min(rows.first_hop.len());
    if supernodes > shortest || hops > rows.hop_row.len() {
        return DAMAGED;
    }
    if supernodes == 0 {
        return ended(0, 0, 0);
    }
    let (mut best, mut at, mut left, mut reads) = (None, 0, record.width, 0);
    loop {
        if at >= supernodes {
            return DAMAGED;
        }
        reads += 1;
        let path = (u64::from(address) << 4 >> left) as u32 & 15;
        best = longest(rows, at, path, record.width, left).or(best);
        let external = rows.external[at];
        if external >> path & 1 == 0 {
            break;
        }
        if left < 4 {
            return DAMAGED;
        }
        at = rows.first_child[at] as usize + ones_before(external, path);
        left -= 4;
    }
    match best {
        None => ended(0, 0, reads),
        Some((place, _)) if place >= hops => DAMAGED,
        Some((place, length)) => won(rows.hop_row[place], length, reads),
    }
}

/// One lookup behind a call, as the archive's is.
#[inline(never)]
pub fn lookup_bitmap(record: Bitmap, rows: BitmapRows, address: u32) -> Numbers {
    visit(&record, rows, address)
}
