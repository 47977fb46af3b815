//! Stride choices (01, "Stride choices"): fixed and variable, each in two ways that know nothing of
//! each other. Brute force lists ALL choices and takes the cheapest by the rule's own words; a
//! recurrence serves the tries that are too large for that. The tests hold the two together.

use crate::trie::Trie;
use std::collections::BTreeMap;

/// The level limit k is 1 to 32 (02; 01: to 8).
pub const LEVELS: usize = 32;

#[derive(Clone, Copy, PartialEq, Eq, Debug)]
pub enum Kind {
    Fixed,
    Variable,
}

/// What a chooser finds: the least cost, and the stride of every block. For the fixed kind `list` is
/// the list of strides; for the variable kind `blocks` has the stride at each node where one begins.
#[derive(Clone, PartialEq, Eq, Debug, Default)]
pub struct Choice {
    pub cost: u64,
    pub list: Vec<u32>,
    pub blocks: BTreeMap<String, u32>,
}

impl Choice {
    /// The record's strides: an array of 32 (02; 01: of eight), unused places 0; a variable choice fills
    /// only the first, the root's.
    pub fn strides(&self) -> [u8; LEVELS] {
        let mut strides = [0; LEVELS];
        for (i, s) in self.list.iter().enumerate() {
            strides[i] = *s as u8;
        }
        if let Some(s) = self.blocks.get("") {
            strides[0] = *s as u8;
        }
        strides
    }

    /// The stride of the block that begins at a node, the n-th on its path (from 0).
    pub fn stride(&self, node: &str, n: usize) -> u32 {
        if self.list.is_empty() {
            self.blocks[node]
        } else {
            self.list[n]
        }
    }
}

pub fn choose(kind: Kind, trie: &Trie, k: u32) -> Choice {
    match kind {
        Kind::Fixed => fixed(trie, k),
        Kind::Variable => variable(trie, k),
    }
}

// ---- fixed, by brute force

/// Every list of at most k strides, each at least 1, with the given sum.
pub fn fixed_lists(sum: u32, k: u32) -> Vec<Vec<u32>> {
    if sum == 0 {
        return vec![vec![]];
    }
    if k == 0 {
        return vec![];
    }
    let mut lists = vec![];
    for first in 1..=sum {
        for rest in fixed_lists(sum - first, k - 1) {
            let mut list = vec![first];
            list.extend(rest);
            lists.push(list);
        }
    }
    lists
}

/// A stride s starting at level i costs nodes(i) × 2^s. The cost is the sum.
pub fn fixed_cost(trie: &Trie, list: &[u32]) -> u64 {
    let (mut level, mut cost) = (0, 0);
    for s in list {
        cost += trie.nodes_at(level) << s;
        level += s;
    }
    cost
}

/// Of all lists the cheapest; of the cheapest the one with the smallest first stride, of those the
/// one with the smallest second, and so on.
pub fn fixed_brute(trie: &Trie, k: u32) -> Choice {
    let lists = fixed_lists(trie.longest, k);
    let cost = lists.iter().map(|l| fixed_cost(trie, l)).min().expect("k is at least 1");
    let mut cheapest: Vec<Vec<u32>> = lists.into_iter().filter(|l| fixed_cost(trie, l) == cost).collect();
    let mut at = 0;
    while cheapest.iter().all(|l| l.len() > at) {
        let smallest = cheapest.iter().map(|l| l[at]).min().unwrap();
        cheapest.retain(|l| l[at] == smallest);
        at += 1;
    }
    assert!(cheapest.len() == 1, "two lists of one sum, the one a start of the other");
    Choice { cost, list: cheapest.remove(0), blocks: BTreeMap::new() }
}

// ---- fixed, by recurrence

/// From level i with r strides left: the least of nodes(i) × 2^s plus what is left, the smallest such s.
pub fn fixed(trie: &Trie, k: u32) -> Choice {
    let levels = trie.longest as usize;
    let mut nodes = vec![0u64; levels];
    for node in trie.nodes() {
        nodes[node.len()] += 1;
    }
    let best = |i: usize, after: &Vec<Option<u64>>| -> Option<(u64, u32)> {
        let mut found: Option<(u64, u32)> = None;
        for s in 1..=levels - i {
            if let Some(rest) = after[i + s] {
                let cost = (nodes[i] << s) + rest;
                if found.map_or(true, |(least, _)| cost < least) {
                    found = Some((cost, s as u32));
                }
            }
        }
        found
    };
    // least[r][i]: the least cost of levels i to L-1 with at most r strides, if there is one
    let mut least: Vec<Vec<Option<u64>>> =
        vec![(0..=levels).map(|i| if i == levels { Some(0) } else { None }).collect()];
    for r in 1..=k as usize {
        let row =
            (0..=levels).map(|i| if i == levels { Some(0) } else { best(i, &least[r - 1]).map(|b| b.0) }).collect();
        least.push(row);
    }
    let (mut level, mut r, mut list) = (0, k as usize, vec![]);
    while level < levels {
        let (_, s) = best(level, &least[r - 1]).expect("a list with at most k strides");
        list.push(s);
        level += s as usize;
        r -= 1;
    }
    Choice { cost: least[k as usize][0].unwrap(), list, blocks: BTreeMap::new() }
}

// ---- variable, by brute force

type Blocks = BTreeMap<String, u32>;

/// How many choices there are at a node with r blocks left on each path (at most u64::MAX).
pub fn variable_count(trie: &Trie, node: &str, r: u32) -> u64 {
    if r == 0 {
        return 0;
    }
    (1..=1 + trie.height(node))
        .map(|s| {
            let below = trie.below(node, s);
            below.iter().map(|d| variable_count(trie, d, r - 1)).fold(1u64, |a, b| a.saturating_mul(b))
        })
        .fold(0u64, |a, b| a.saturating_add(b))
}

/// Every choice at a node: a stride s from 1 to 1 + its height, and any choice at each of its
/// descendants exactly s levels lower, no path with more than r blocks.
pub fn variable_choices(trie: &Trie, node: &str, r: u32) -> Vec<Blocks> {
    if r == 0 {
        return vec![];
    }
    let mut choices = vec![];
    for s in 1..=1 + trie.height(node) {
        let mut partial = vec![BTreeMap::from([(node.to_string(), s)])];
        for d in trie.below(node, s) {
            let parts = variable_choices(trie, &d, r - 1);
            partial = partial.iter().flat_map(|p| parts.iter().map(move |q| joined(p, q))).collect();
        }
        choices.extend(partial);
    }
    choices
}

fn joined(p: &Blocks, q: &Blocks) -> Blocks {
    p.iter().chain(q).map(|(node, s)| (node.clone(), *s)).collect()
}

/// Each block costs 2^s.
pub fn variable_cost(blocks: &Blocks) -> u64 {
    blocks.values().map(|s| 1u64 << s).sum()
}

/// The least cost over all choices at a node, and the smallest stride that begins a cheapest one.
fn variable_first(trie: &Trie, node: &str, r: u32) -> (u64, u32) {
    let choices = variable_choices(trie, node, r);
    let cost = choices.iter().map(variable_cost).min().expect("r is at least 1");
    let first = choices.iter().filter(|c| variable_cost(c) == cost).map(|c| c[node]).min().unwrap();
    (cost, first)
}

/// The tie rule at the root with k levels; below each block the same rule with one level less.
pub fn variable_brute(trie: &Trie, k: u32) -> Choice {
    let mut choice = Choice::default();
    let mut open = vec![];
    if trie.has("") {
        open.push((String::new(), k));
        choice.cost = variable_first(trie, "", k).0;
    }
    while let Some((node, r)) = open.pop() {
        let (_, s) = variable_first(trie, &node, r);
        for d in trie.below(&node, s) {
            open.push((d, r - 1));
        }
        choice.blocks.insert(node, s);
    }
    assert!(variable_cost(&choice.blocks) == choice.cost, "the tie rule's choice is a cheapest one");
    choice
}

// ---- variable, by recurrence

/// The least cost and the smallest stride that gives it, for every node and every number of levels
/// left. Nodes are numbered level by level from the deepest, so that descendants come first.
struct Costs {
    number: BTreeMap<String, usize>,
    best: Vec<Vec<Option<(u64, u32)>>>,
}

fn costs(trie: &Trie, k: u32) -> Costs {
    let mut names: Vec<&String> = trie.nodes().collect();
    names.sort_by_key(|n| std::cmp::Reverse(n.len()));
    let number: BTreeMap<String, usize> = names.iter().enumerate().map(|(i, n)| ((*n).clone(), i)).collect();
    let parent: Vec<Option<usize>> =
        names.iter().map(|n| if n.is_empty() { None } else { Some(number[&n[..n.len() - 1]]) }).collect();
    let mut best = vec![vec![None; names.len()]];
    for r in 1..=k as usize {
        let row = least_row(trie, &names, &parent, &best[r - 1]);
        best.push(row);
    }
    Costs { number, best }
}

/// One number of levels left, from the costs with one level less.
fn least_row(
    trie: &Trie,
    names: &[&String],
    parent: &[Option<usize>],
    less: &[Option<(u64, u32)>],
) -> Vec<Option<(u64, u32)>> {
    // sums[node][s]: the costs of the descendants exactly s levels lower, together
    let mut sums: Vec<Vec<Option<u64>>> = names.iter().map(|n| vec![Some(0); trie.height(n) as usize + 2]).collect();
    for node in 0..names.len() {
        let (mut up, mut s) = (parent[node], 1);
        while let Some(above) = up {
            sums[above][s] = match (sums[above][s], less[node]) {
                (Some(sum), Some((cost, _))) => Some(sum + cost),
                _ => None,
            };
            up = parent[above];
            s += 1;
        }
    }
    (0..names.len())
        .map(|node| {
            let mut found: Option<(u64, u32)> = None;
            for s in 1..=trie.height(names[node]) + 1 {
                if let Some(sum) = sums[node][s as usize] {
                    let cost = (1u64 << s) + sum;
                    if found.map_or(true, |(least, _)| cost < least) {
                        found = Some((cost, s));
                    }
                }
            }
            found
        })
        .collect()
}

pub fn variable(trie: &Trie, k: u32) -> Choice {
    let mut choice = Choice::default();
    if !trie.has("") {
        return choice;
    }
    let costs = costs(trie, k);
    let of = |node: &str, r: u32| costs.best[r as usize][costs.number[node]].expect("a level is left");
    choice.cost = of("", k).0;
    let mut open = vec![(String::new(), k)];
    while let Some((node, r)) = open.pop() {
        let (_, s) = of(&node, r);
        for d in trie.below(&node, s) {
            open.push((d, r - 1));
        }
        choice.blocks.insert(node, s);
    }
    choice
}
