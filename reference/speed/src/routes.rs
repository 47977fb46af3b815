//! Route tables and addresses to measure with, the same on every run.

use reference::random::{cut, Random};
use reference::table::{fewest_links, DISCARD};
use std::collections::BTreeSet;

pub const WIDTH: u32 = 32;
/// Routes of each length from 8 bits on, of a thousand: most have 24 bits, as in tables of the internet, and none has more.
const LENGTHS: [u64; 17] = [1, 1, 2, 3, 6, 9, 12, 14, 30, 18, 28, 40, 60, 60, 115, 100, 501];
const SHORTEST: u32 = 8;
/// Every so many routes begin an allocation of their own; the others lie in one that is there.
const ALLOCATION: u64 = 6;
/// Bits that the routes of an allocation share.
const ALLOCATED: u32 = 14;
/// Addresses in a row below one route, where they are local.
const FLOW: usize = 32;

/// A table that owns its lists.
pub struct Routes {
    pub value: Vec<u32>,
    pub length: Vec<u8>,
    pub hop: Vec<u16>,
    /// As many as the hops ask for, so that neither side can know before it runs that none is refused.
    pub links: u16,
}

#[derive(Clone, Copy, PartialEq, Eq, Debug)]
pub enum Pattern {
    /// Any address.
    Random,
    /// Any address below any route.
    Routed,
    /// Runs of addresses below one route.
    Local,
}

pub const PATTERNS: [Pattern; 3] = [Pattern::Random, Pattern::Routed, Pattern::Local];

fn length(random: &mut Random) -> u32 {
    let mut at = random.within(0, LENGTHS.iter().sum::<u64>() - 1);
    for (i, share) in LENGTHS.iter().enumerate() {
        if at < *share {
            return SHORTEST + i as u32;
        }
        at -= share;
    }
    unreachable!("below the sum of all shares")
}

impl Routes {
    fn of(prefixes: BTreeSet<(u32, u8)>, random: &mut Random) -> Routes {
        let hop: Vec<u16> = prefixes.iter().map(|_| random.within(1, 64) as u16).collect();
        Routes {
            value: prefixes.iter().map(|p| p.0).collect(),
            length: prefixes.iter().map(|p| p.1).collect(),
            links: fewest_links(&hop),
            hop,
        }
    }

    /// n different routes, the last `hosts` of them with all 32 bits.
    pub fn new(n: usize, hosts: usize, seed: u64) -> Routes {
        let mut random = Random::new(seed);
        let mut prefixes: BTreeSet<(u32, u8)> = BTreeSet::new();
        let mut allocations: Vec<u64> = vec![];
        while prefixes.len() < n {
            if allocations.is_empty() || random.one_in(ALLOCATION) {
                allocations.push(cut(WIDTH, random.next(), ALLOCATED) as u64);
            }
            let at = allocations[random.within(0, allocations.len() as u64 - 1) as usize];
            let inside = random.next() & ((1 << (WIDTH - ALLOCATED)) - 1);
            let length = if prefixes.len() + hosts < n { length(&mut random) } else { WIDTH };
            prefixes.insert((cut(WIDTH, at | inside, length), length as u8));
        }
        Routes::of(prefixes, &mut random)
    }

    /// The same routes, of which one in eight discards: which an address meets is hard to foresee.
    pub fn discarding(&self, seed: u64) -> Routes {
        let mut random = Random::new(seed);
        let hop = self.hop.iter().map(|hop| if random.one_in(8) { DISCARD } else { *hop }).collect();
        Routes { value: self.value.clone(), length: self.length.clone(), hop, links: self.links }
    }

    /// The nodes of the 1-bit trie at a level: the different starts of that many bits among longer routes.
    pub fn nodes(&self, level: u32) -> u64 {
        let longer = (0..self.value.len()).filter(|i| self.length[*i] as u32 > level);
        let mut starts: Vec<u64> = longer.map(|i| (self.value[i] as u64) >> (WIDTH - level)).collect();
        starts.dedup();
        starts.len() as u64
    }

    pub fn longest(&self) -> u32 {
        self.length.iter().copied().max().unwrap_or(0) as u32
    }

    pub fn addresses(&self, pattern: Pattern, n: usize, seed: u64) -> Vec<u32> {
        let mut random = Random::new(seed);
        let mut route = 0;
        (0..n)
            .map(|i| {
                let any = random.next() as u32;
                if pattern == Pattern::Random {
                    return any;
                }
                if pattern == Pattern::Routed || i % FLOW == 0 {
                    route = random.within(0, self.value.len() as u64 - 1) as usize;
                }
                let inside = ((1u64 << (WIDTH - self.length[route] as u32)) - 1) as u32;
                self.value[route] | (any & inside)
            })
            .collect()
    }
}
