//! The table, its tests 1, 3, 4, 5, and how many nodes an entry adds to the 1-bit trie of those before it.

use super::WIDTH;

/// The most entries.
const ENTRIES: usize = 65_536;
/// The hop of a discard, which needs no link.
const DISCARD: u16 = 65_535;

#[derive(Clone, Copy)]
pub struct Table<'a> {
    pub width: u32,
    pub links: u16,
    pub value: &'a [u32],
    pub length: &'a [u8],
    pub hop: &'a [u16],
}

impl Table<'_> {
    /// Number and detail of the first refusal.
    pub fn check(&self) -> Result<(), (u32, u64)> {
        if self.width == 0 || self.width > WIDTH {
            return Err((1, 0));
        }
        let n = self.value.len();
        if self.length.len() != n || self.hop.len() != n || n > ENTRIES {
            return Err((3, 0));
        }
        for i in 0..n {
            if self.is_malformed(i) || self.hop[i] == 0 || (self.hop[i] > self.links && self.hop[i] < DISCARD) {
                return Err((4, i as u64));
            }
            if i > 0 && (self.value[i - 1], self.length[i - 1]) >= (self.value[i], self.length[i]) {
                return Err((5, i as u64));
            }
        }
        Ok(())
    }

    fn is_malformed(&self, i: usize) -> bool {
        let (value, length) = (u64::from(self.value[i]), u32::from(self.length[i]));
        length > self.width || value >= 1 << self.width || value % (1 << (self.width - length)) != 0
    }

    /// The nodes that entry i adds to those of the entries before it, in a good table.
    pub fn new_nodes(&self, i: usize) -> usize {
        let length = self.length[i] as usize;
        if i == 0 {
            return length;
        }
        let most = self.length[i - 1].min(self.length[i]) as usize;
        length - most.min(self.shared_bits(i, most as u32) + 1)
    }

    /// The leading bits, at most `most`, that entry i shares with the one before.
    fn shared_bits(&self, i: usize, most: u32) -> usize {
        let zeros = (self.value[i - 1] ^ self.value[i]).leading_zeros();
        most.min(zeros - (u32::BITS - self.width)) as usize
    }

    pub fn nodes(&self) -> usize {
        (0..self.value.len()).map(|i| self.new_nodes(i)).sum()
    }

    /// The hop of the entry of length 0, which can only be the first.
    pub fn floor(&self) -> u16 {
        if self.length.first() == Some(&0) {
            self.hop[0]
        } else {
            0
        }
    }
}
