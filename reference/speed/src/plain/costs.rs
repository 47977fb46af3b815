//! The variable choice, from the bottom up, in passes of COLUMNS numbers of levels: each node takes over from the two below it what
//! the nodes j levels below cost together, for all j at once.

use super::rows::{asked, COST, DEPTH, ROW, STRIDE};
use super::WIDTH;

/// Costs are held here, above what any choice at 32 bits costs.
const CAP: u64 = 1 << 33;
/// Numbers of levels in a pass.
const COLUMNS: usize = 8;
/// Lines of the sums: a node at level d has 32 - d of them, those of the nodes above it stay, and one more is only read, as 0.
const SUM_LINES: usize = WIDTH as usize * (WIDTH as usize + 1) / 2 + 1;

fn capped_sum(a: u64, b: u64) -> u64 {
    if a >= CAP || b >= CAP - a {
        CAP
    } else {
        a + b
    }
}

fn power(n: usize) -> u64 {
    (1u64 << n).min(CAP)
}

/// The cheapest stride from 1 to `depth` for n nodes with r + 1 levels left, the smallest of equals, and its cost. What the blocks
/// below a stride cost stands at place `first` of the sums, and `pitch` places later for each stride more.
pub fn choice(sums: &[u64], first: usize, pitch: usize, n: u64, r: usize, depth: usize) -> (u64, usize) {
    if r == 0 {
        return (capped_sum(n * power(depth), 0), depth);
    }
    let price = |stride: usize| capped_sum(n * power(stride), sums[(stride - 1) * pitch + first]);
    let mut best = (price(1), 1);
    for stride in 2..=depth {
        let cost = price(stride);
        if cost < best.0 {
            best = (cost, stride);
        }
    }
    best
}

/// One pass: the costs with from + 1 to `to` levels left.
struct Pass {
    from: usize,
    to: usize,
    sums: [u64; SUM_LINES * COLUMNS],
}

impl Pass {
    /// Adds the sums below a node, which stand from line `below` on, to its own from `line` on, one line later, and clears them; then
    /// the costs of the node itself.
    fn hand_up(&mut self, rows: &[u64], link: usize, line: usize, below: usize, deep: usize) {
        let (own, lower) = self.sums.split_at_mut(below * COLUMNS);
        let (own, lower) = (&mut own[(line + 1) * COLUMNS..][..deep * COLUMNS], &mut lower[..deep * COLUMNS]);
        for (up, down) in own.iter_mut().zip(lower) {
            *up = capped_sum(*up, *down);
            *down = 0;
        }
        for r in self.from.max(1)..self.to {
            let sum = &mut self.sums[line * COLUMNS + r - self.from];
            *sum = capped_sum(*sum, asked(rows, link, COST - 1 + r) as u64);
        }
    }

    /// Settles every row of the tree at a link, which stands at level d, and adds what its nodes cost to the sums from `line` on.
    fn settle(&mut self, rows: &mut [u64], link: usize, d: usize, line: usize) {
        if link == 0 {
            return;
        }
        let below = line + WIDTH as usize - d;
        self.settle(rows, asked(rows, link, 0), d + 1, below);
        self.settle(rows, asked(rows, link, 1), d + 1, below);
        let row = &mut rows[(link - 1) * ROW..link * ROW];
        let depth = row[DEPTH] as usize;
        for r in self.from..self.to {
            let (cost, stride) = choice(&self.sums, below * COLUMNS + r - self.from, COLUMNS, 1, r, depth);
            row[COST + r] = cost;
            row[STRIDE + r] = stride as u64;
        }
        self.hand_up(rows, link, line, below, depth - 1);
    }
}

/// Settles every row of the tree at a link.
pub fn settle_all(rows: &mut [u64], link: usize, levels: usize) {
    for from in (0..levels).step_by(COLUMNS) {
        let mut pass = Pass { from, to: levels.min(from + COLUMNS), sums: [0; SUM_LINES * COLUMNS] };
        pass.settle(rows, link, 0, 0);
    }
}
