//! The table (01, "The table"), its tests (01, "Refusals", 1, 3, 4, 5), longest match, and the two
//! answers about entries (01, "Two answers about entries": zone and shared length, test 10).
//! A prefix is taken literally, as its string of '0' and '1'; an entry matches an address when the
//! address's string starts with it. Every answer scans all entries.

/// Width W is 1 to 32.
pub const WIDTHS: u32 = 32;
/// n is 0 to 65,536 (02; 01: to 4,096).
pub const ENTRIES: usize = 65536;
/// Hop 65,535 means discard (02, [4]).
pub const DISCARD: u16 = 65535;
/// The number of links is 0 to 65,535 (02, [7]). With the most any hop but 0 is accepted.
pub const LINKS: u16 = 65535;

/// A refusal by number with its detail (01, "Refusals, in order of test").
#[derive(Clone, Copy, PartialEq, Eq, Debug)]
pub struct Refusal {
    pub number: u32,
    pub detail: u64,
}

pub fn refuse<T>(number: u32, detail: u64) -> Result<T, Refusal> {
    Err(Refusal { number, detail })
}

/// Three lists, of equal length in a good table, the width, and the number of links that the caller states (02, [7]).
/// There is no default: with 0 links nearly every table is refused.
#[derive(Clone, PartialEq, Eq, Debug)]
pub struct Table {
    pub width: u32,
    pub links: u16,
    pub value: Vec<u32>,
    pub length: Vec<u8>,
    pub hop: Vec<u16>,
}

/// The first `count` of the `width` bits of a number, leftmost bit first.
pub fn bits(width: u32, number: u32, count: u32) -> String {
    (0..count).map(|i| if number as u64 >> (width - 1 - i) & 1 == 1 { '1' } else { '0' }).collect()
}

impl Table {
    /// A table without entries.
    pub fn empty(width: u32, links: u16) -> Table {
        Table { width, links, value: vec![], length: vec![], hop: vec![] }
    }

    /// The same entries in a gateway with another number of links.
    pub fn with_links(&self, links: u16) -> Table {
        Table { links, ..self.clone() }
    }

    /// The entry's own bit string. Only for entries that passed test 4.
    pub fn entry(&self, i: usize) -> String {
        bits(self.width, self.value[i], self.length[i] as u32)
    }

    pub fn entries(&self) -> Vec<String> {
        (0..self.value.len()).map(|i| self.entry(i)).collect()
    }

    /// The hop of the length 0 entry, else 0 (01, "The 1-bit trie").
    pub fn floor(&self) -> u16 {
        (0..self.value.len()).find(|&i| self.length[i] == 0).map_or(0, |i| self.hop[i])
    }

    /// The table check tests 1, 3, 4, 5.
    pub fn check(&self) -> Result<(), Refusal> {
        test_width(self.width)?;
        self.test_lists()?;
        self.test_entries()
    }

    /// Test 3: lists of unequal length, or n above 65,536.
    pub fn test_lists(&self) -> Result<(), Refusal> {
        let n = self.value.len();
        if self.length.len() != n || self.hop.len() != n || n > ENTRIES {
            return refuse(3, 0);
        }
        Ok(())
    }

    /// Tests 4 and 5 go entry by entry, 4 first at each; the lowest index is reported.
    pub fn test_entries(&self) -> Result<(), Refusal> {
        for i in 0..self.value.len() {
            let bad_hop = self.hop[i] == 0 || lacks_link(self.hop[i], self.links);
            if malformed(self.width, self.value[i], self.length[i]) || bad_hop {
                return refuse(4, i as u64);
            }
            if i > 0 && !self.above(i, self.value[i - 1], self.length[i - 1]) {
                return refuse(5, i as u64);
            }
        }
        Ok(())
    }

    /// Whether entry i stands above a prefix: by value, then by length.
    fn above(&self, i: usize, value: u32, length: u8) -> bool {
        self.value[i] > value || (self.value[i] == value && self.length[i] > length)
    }

    /// The longest entry that the address starts with.
    pub fn longest(&self, address: u32) -> Option<usize> {
        let address = bits(self.width, address, self.width);
        let mut best: Option<usize> = None;
        for i in 0..self.value.len() {
            if address.starts_with(&self.entry(i)) && best.map_or(true, |b| self.length[i] > self.length[b]) {
                best = Some(i);
            }
        }
        best
    }

    /// The hop and the length of the longest matching entry, else 0 and 0.
    pub fn answer(&self, address: u32) -> (u16, u8) {
        self.longest(address).map_or((0, 0), |i| (self.hop[i], self.length[i]))
    }

    /// The first index and the count of the entries that start with the prefix. If none, count 0 at
    /// the index where the prefix itself would stand. Tests 1, 3, 4, 5, 10.
    pub fn zone(&self, prefix: u32, length: u8) -> Result<(usize, usize), Refusal> {
        self.check()?;
        if malformed(self.width, prefix, length) {
            return refuse(10, 0);
        }
        let start = bits(self.width, prefix, length as u32);
        let inside: Vec<usize> = (0..self.value.len()).filter(|&i| self.entry(i).starts_with(&start)).collect();
        if inside.is_empty() {
            let below = (0..self.value.len()).filter(|&i| !self.above(i, prefix, length)).count();
            return Ok((below, 0));
        }
        let last = inside[inside.len() - 1];
        assert!(last - inside[0] + 1 == inside.len(), "the entries of a zone are neighbours");
        Ok((inside[0], inside.len()))
    }
}

/// Test 1: W is 0 or above 32.
pub fn test_width(width: u32) -> Result<(), Refusal> {
    if width == 0 || width > WIDTHS {
        return refuse(1, 0);
    }
    Ok(())
}

/// Test 4 but for the hop: length above W, value not below 2^W, or a bit set past the length.
pub fn malformed(width: u32, value: u32, length: u8) -> bool {
    length as u32 > width || value as u64 >= 1 << width || bits(width, value, width)[length as usize..].contains('1')
}

/// Test 4's clause of 02, [7], for an entry or a rule: a hop above the number of links and below 65,535. A discard needs no
/// link.
pub fn lacks_link(hop: u16, links: u16) -> bool {
    hop > links && hop < DISCARD
}

/// The fewest links with which none of these hops lacks its link: the largest that is no discard, else 0.
pub fn fewest_links(hops: &[u16]) -> u16 {
    hops.iter().copied().filter(|hop| *hop != DISCARD).max().unwrap_or(0)
}

/// The number of leading bits that two prefixes both have. Tests 1, then 10.
pub fn shared_length(width: u32, a: u32, a_length: u8, b: u32, b_length: u8) -> Result<u32, Refusal> {
    test_width(width)?;
    if malformed(width, a, a_length) || malformed(width, b, b_length) {
        return refuse(10, 0);
    }
    let a = bits(width, a, a_length as u32);
    let b = bits(width, b, b_length as u32);
    Ok(a.bytes().zip(b.bytes()).take_while(|(x, y)| x == y).count() as u32)
}
