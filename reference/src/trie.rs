//! The 1-bit trie (01, "The 1-bit trie"), as the set of its bit strings: a node for each proper
//! start of some entry. A length 0 entry has no proper start and makes no node.

use crate::table::Table;
use std::collections::{BTreeMap, BTreeSet};

pub struct Trie {
    nodes: BTreeSet<String>,
    heights: BTreeMap<String, u32>,
    /// L, the longest length: levels run 0 to L-1.
    pub longest: u32,
}

impl Trie {
    pub fn of(table: &Table) -> Trie {
        let mut nodes = BTreeSet::new();
        let mut longest = 0;
        for entry in table.entries() {
            for end in 0..entry.len() {
                nodes.insert(entry[..end].to_string());
            }
            longest = longest.max(entry.len() as u32);
        }
        // The height of a node: the number of levels below it that its subtree reaches.
        let mut heights: BTreeMap<String, u32> = BTreeMap::new();
        for node in &nodes {
            for end in 0..=node.len() {
                let below = (node.len() - end) as u32;
                let height = heights.entry(node[..end].to_string()).or_insert(0);
                *height = below.max(*height);
            }
        }
        Trie { nodes, heights, longest }
    }

    pub fn size(&self) -> usize {
        self.nodes.len()
    }

    pub fn has(&self, node: &str) -> bool {
        self.nodes.contains(node)
    }

    pub fn nodes(&self) -> impl Iterator<Item = &String> {
        self.nodes.iter()
    }

    /// nodes(i): the number of nodes of level i.
    pub fn nodes_at(&self, level: u32) -> u64 {
        self.nodes.iter().filter(|n| n.len() as u32 == level).count() as u64
    }

    pub fn height(&self, node: &str) -> u32 {
        self.heights[node]
    }

    /// The descendants of a node exactly s levels lower, left to right.
    pub fn below(&self, node: &str, s: u32) -> Vec<String> {
        self.nodes
            .range(node.to_string()..)
            .take_while(|n| n.starts_with(node))
            .filter(|n| n.len() == node.len() + s as usize)
            .cloned()
            .collect()
    }
}
