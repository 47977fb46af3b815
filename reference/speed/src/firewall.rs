//! Rules and pairs of addresses to measure with, as a firewall board meets them, the same on every run.

use crate::plain::{mask, ranked, winner, Ranked};
use crate::routes::WIDTH;
use reference::random::{cut, Random};
use reference::rules::{Rule, Rules};
use reference::table::DISCARD;

/// A nested prefix is so many bits longer than the one in which it lies.
const LONGER: (u64, u64) = (6, 8);
/// The sources of each destination are drawn from so many times as many.
const POOL: usize = 4;
/// One action in so many is a discard.
const DISCARDS: u64 = 4;
/// The other actions are 1 to this.
const ACTIONS: u64 = 8;

type Prefix = (u32, u8);

/// Pairs of a destination address and a source address.
#[derive(Clone, Copy, PartialEq, Eq, Debug)]
pub enum Pairs {
    /// Any two addresses.
    Random,
    /// Inside the destination and the source of any rule.
    Matched,
    /// Inside any rule's destination and any rule's source, where the trie of the longest destination has no match and another is visited.
    Missed,
}

pub const PAIRS: [Pairs; 3] = [Pairs::Random, Pairs::Matched, Pairs::Missed];

/// Rules, and their destinations.
pub struct Firewall {
    pub rules: Rules,
    pub ranked: Vec<Ranked>,
    pub dests: Vec<Prefix>,
}

/// An address inside a prefix.
fn inside((value, length): Prefix, random: &mut Random) -> u32 {
    value | (random.next() as u32 & !mask(length))
}

/// Different prefixes: that of length 0, then others, each nested in one before it.
fn nested(n: usize, random: &mut Random) -> Vec<Prefix> {
    let mut prefixes = vec![(0, 0)];
    while prefixes.len() < n {
        let around = random.of(&prefixes);
        let length = u32::from(around.1) + random.within(LONGER.0, LONGER.1) as u32;
        if length > WIDTH {
            continue;
        }
        let new = (cut(WIDTH, u64::from(inside(around, random)), length), length as u8);
        if !prefixes.contains(&new) {
            prefixes.push(new);
        }
    }
    prefixes
}

/// So many different ones of a list.
fn drawn(n: usize, from: &[Prefix], random: &mut Random) -> Vec<Prefix> {
    let mut left = from.to_vec();
    (0..n).map(|_| left.swap_remove(random.within(0, left.len() as u64 - 1) as usize)).collect()
}

impl Firewall {
    /// Nested destinations, with so many sources each. The destination of length 0 has none of length 0, so that some packets match
    /// no rule.
    pub fn new(dests: usize, sources: usize, seed: u64) -> Firewall {
        let mut random = Random::new(seed);
        let mut dests = nested(dests, &mut random);
        let pool = nested(POOL * sources, &mut random);
        dests.sort();
        let mut rules: Vec<Rule> = vec![];
        for dest in &dests {
            let mut own = drawn(sources, &pool[usize::from(dest.1 == 0)..], &mut random);
            own.sort();
            for source in own {
                let action = random.within(1, ACTIONS) as u16;
                let action = if random.one_in(DISCARDS) { DISCARD } else { action };
                rules.push((dest.0, dest.1, source.0, source.1, action));
            }
        }
        let rules = Rules::of(WIDTH, &rules);
        Firewall { ranked: ranked(&rules), rules, dests }
    }

    /// How many source tries these addresses visit: the destinations that begin the one and are no shorter than the winner's.
    pub fn visits(&self, (dest, source): (u32, u32)) -> usize {
        let least = winner(&self.ranked, dest, source).map_or(0, |rule| rule.dest_mask);
        self.dests.iter().filter(|(value, length)| dest & mask(*length) == *value && mask(*length) >= least).count()
    }

    fn pair(&self, pairs: Pairs, random: &mut Random) -> (u32, u32) {
        let rules = &self.rules;
        let mut any = || random.within(0, rules.count() as u64 - 1) as usize;
        let (i, j) = (any(), any());
        let j = if pairs == Pairs::Matched { i } else { j };
        match pairs {
            Pairs::Random => (random.next() as u32, random.next() as u32),
            Pairs::Matched | Pairs::Missed => (
                inside((rules.dest_value[i], rules.dest_length[i]), random),
                inside((rules.source_value[j], rules.source_length[j]), random),
            ),
        }
    }

    pub fn pairs(&self, pairs: Pairs, n: usize, seed: u64) -> Vec<(u32, u32)> {
        let mut random = Random::new(seed);
        let any = std::iter::repeat_with(|| self.pair(pairs, &mut random));
        any.filter(|pair| pairs != Pairs::Missed || self.visits(*pair) > 1).take(n).collect()
    }
}
