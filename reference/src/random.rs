//! A small seeded generator (splitmix64), so that the vectors are the same on every run, and random
//! tables, rules and prefixes made with it.

use crate::rules::{Rule, Rules};
use crate::table::{fewest_links, Table, DISCARD, LINKS};

pub struct Random {
    state: u64,
}

impl Random {
    pub fn new(seed: u64) -> Random {
        Random { state: seed }
    }

    pub fn next(&mut self) -> u64 {
        self.state = self.state.wrapping_add(0x9e37_79b9_7f4a_7c15);
        let mut z = self.state;
        z = (z ^ (z >> 30)).wrapping_mul(0xbf58_476d_1ce4_e5b9);
        z = (z ^ (z >> 27)).wrapping_mul(0x94d0_49bb_1331_11eb);
        z ^ (z >> 31)
    }

    /// A number from `low` to `high`, both included.
    pub fn within(&mut self, low: u64, high: u64) -> u64 {
        low + self.next() % (high - low + 1)
    }

    pub fn one_in(&mut self, n: u64) -> bool {
        self.next() % n == 0
    }

    /// A well-formed prefix of the width, its length from `shortest` to `longest`.
    pub fn prefix(&mut self, width: u32, shortest: u32, longest: u32) -> (u32, u8) {
        let length = self.within(shortest as u64, longest as u64) as u32;
        (cut(width, self.next(), length), length as u8)
    }

    /// A prefix that starts with a given one, or is a start of it, or is near it.
    pub fn relative(&mut self, width: u32, of: (u32, u8)) -> (u32, u8) {
        let length = self.within(0, width as u64) as u32;
        let noise = if of.1 as u32 == width { 0 } else { self.next() & ((1 << (width - of.1 as u32)) - 1) };
        let mut value = of.0 as u64 | noise;
        if self.one_in(4) {
            value ^= 1 << self.within(0, width as u64 - 1);
        }
        (cut(width, value, length), length as u8)
    }

    /// Any hop of an entry, often the smallest, the largest of a link, or that of a discard.
    pub fn hop(&mut self) -> u16 {
        match self.next() % 8 {
            0 => 1,
            1 => 65534,
            2 => DISCARD,
            3 => self.within(1, 65535) as u16,
            _ => self.within(1, 9) as u16,
        }
    }

    /// A number of links for entries or rules with these hops: three times in four the most, else just enough, too few, or none.
    pub fn links(&mut self, hops: &[u16]) -> u16 {
        match self.within(0, 11) {
            0 => fewest_links(hops),
            1 => self.too_few_links(hops),
            2 => 0,
            _ => LINKS,
        }
    }

    /// One less than some hop that is no discard, so that this one lacks its link; 0 where there is none.
    pub fn too_few_links(&mut self, hops: &[u16]) -> u16 {
        let linked: Vec<u16> = hops.iter().copied().filter(|hop| (1..DISCARD).contains(hop)).collect();
        if linked.is_empty() {
            return 0;
        }
        self.of(&linked) - 1
    }

    /// A well-formed table of at most n entries, half of them nested in others, with the most links.
    pub fn table(&mut self, width: u32, n: usize) -> Table {
        let mut prefixes: Vec<(u32, u8)> = vec![];
        for _ in 0..n {
            let fresh = prefixes.is_empty() || self.one_in(2);
            let new = if fresh {
                self.prefix(width, 0, width)
            } else {
                let of = prefixes[self.within(0, prefixes.len() as u64 - 1) as usize];
                self.relative(width, of)
            };
            prefixes.push(new);
        }
        prefixes.sort();
        prefixes.dedup();
        let mut table = Table::empty(width, LINKS);
        for (value, length) in prefixes {
            table.value.push(value);
            table.length.push(length);
            table.hop.push(self.hop());
        }
        table
    }

    /// One of a list's elements.
    pub fn of<T: Copy>(&mut self, list: &[T]) -> T {
        list[self.within(0, list.len() as u64 - 1) as usize]
    }

    /// Well-formed rules, at most n. Their destinations are few, so that some have several rules, and half of them are nested
    /// in others; the sources of all are near each other.
    pub fn rules(&mut self, width: u32, n: usize) -> Rules {
        let (dests, sources) = (self.table(width, 1 + n / 2), self.table(width, 1 + n));
        let pairs = |table: &Table| table.value.iter().copied().zip(table.length.clone()).collect::<Vec<_>>();
        let (dests, sources) = (pairs(&dests), pairs(&sources));
        let mut drawn: Vec<((u32, u8), (u32, u8))> = (0..n).map(|_| (self.of(&dests), self.of(&sources))).collect();
        drawn.sort();
        drawn.dedup();
        let rules: Vec<Rule> = drawn.iter().map(|(d, s)| (d.0, d.1, s.0, s.1, self.hop())).collect();
        Rules::of(width, &rules)
    }
}

/// The last `width` bits of a number, with all but the first `length` of them 0.
pub fn cut(width: u32, number: u64, length: u32) -> u32 {
    let past = width - length;
    let number = number & ((1u64 << width) - 1);
    ((number >> past) << past) as u32
}
