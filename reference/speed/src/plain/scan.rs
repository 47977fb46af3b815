//! No trie: a scan over the rules, which are put once in the order in which they win. The first that matches is the winner.

use super::WIDTH;
use reference::rules::Rules;

/// A rule with the masks of its two prefixes.
pub struct Ranked {
    dest: u32,
    pub dest_mask: u32,
    source: u32,
    source_mask: u32,
    pub action: u16,
}

/// The first `length` bits of an address.
pub fn mask(length: u8) -> u32 {
    u32::MAX.checked_shl(WIDTH - u32::from(length)).unwrap_or(0)
}

/// The longest destination first, then the longest source: a longer prefix has the greater mask.
pub fn ranked(rules: &Rules) -> Vec<Ranked> {
    let rule = |i: usize| Ranked {
        dest: rules.dest_value[i],
        dest_mask: mask(rules.dest_length[i]),
        source: rules.source_value[i],
        source_mask: mask(rules.source_length[i]),
        action: rules.action[i],
    };
    let mut ranked: Vec<Ranked> = (0..rules.count()).map(rule).collect();
    ranked.sort_by_key(|rule| std::cmp::Reverse((rule.dest_mask, rule.source_mask)));
    ranked
}

/// Four rules at a time: a loop over single ones is so short that it takes twice as long where it does not lie in one line of the
/// processor's cache.
#[inline(always)]
pub fn winner(rules: &[Ranked], dest: u32, source: u32) -> Option<&Ranked> {
    let matches = |rule: &&Ranked| dest & rule.dest_mask == rule.dest && source & rule.source_mask == rule.source;
    let (fours, rest) = rules.as_chunks::<4>();
    fours.iter().find_map(|four| four.iter().find(matches)).or_else(|| rest.iter().find(matches))
}

/// The action of the rule that wins, 0 where none matches.
#[inline(never)]
pub fn scan(rules: &[Ranked], dest: u32, source: u32) -> u16 {
    winner(rules, dest, source).map_or(0, |rule| rule.action)
}
