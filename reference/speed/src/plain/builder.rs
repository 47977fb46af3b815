//! The element rows, level by level, each level by one walk of the trie from left to right.

use super::building::Lent;
use super::rows::{asked, DEPTH, HOP_BITS, MARK, STRIDE};

/// The trie to be laid, and its strides: a plan from the front where they are fixed, else those of the rows.
pub struct Source<'a> {
    pub rows: &'a [u64],
    pub plan: &'a [u8],
}

/// Where the next block of a level lies, and where the next child block does.
#[derive(Clone, Copy)]
struct Front {
    base: usize,
    free: usize,
}

impl Source<'_> {
    /// The stride of a block at a link with r levels left.
    #[inline]
    fn stride(&self, link: usize, r: usize) -> usize {
        if link == 0 {
            0
        } else if self.plan[0] == 0 {
            asked(self.rows, link, STRIDE - 1 + r)
        } else {
            self.plan[self.plan.len() - r] as usize
        }
    }

    #[inline]
    fn best_below(&self, link: usize, side: usize, best: usize) -> usize {
        match asked(self.rows, link, MARK + side) {
            0 => best,
            mark => mark,
        }
    }

    /// Writes the 2^c rows from `base` on, below the trie at a link; child blocks lie from row `free` on. `best` is the mark of the
    /// longest entry so far. Returns the row after them.
    fn fill(&self, link: usize, c: usize, r: usize, base: usize, best: usize, free: usize, to: &mut Lent) -> usize {
        if link == 0 {
            to.hop[base..base + (1 << c)].fill(best as u16);
            to.length[base..base + (1 << c)].fill((best >> HOP_BITS) as u8);
            to.link[base..base + (1 << c)].fill(0);
            to.stride[base..base + (1 << c)].fill(0);
            return free;
        }
        if c == 0 {
            let stride = self.stride(link, r);
            to.hop[base] = best as u16;
            to.length[base] = (best >> HOP_BITS) as u8;
            to.link[base] = free as u32;
            to.stride[base] = stride as u8;
            return free + (1 << stride);
        }
        let (left, right) = (self.best_below(link, 0, best), self.best_below(link, 1, best));
        let free = self.fill(asked(self.rows, link, 0), c - 1, r, base, left, free, to);
        self.fill(asked(self.rows, link, 1), c - 1, r, base + (1 << (c - 1)), right, free, to)
    }

    /// Writes the blocks of level n below the trie at a link. The next block on a path begins c levels lower, with r
    /// levels left. The n-th block after it begins at least n levels lower, so a subtrie too shallow for that is left.
    fn level(&self, link: usize, c: usize, n: usize, r: usize, front: Front, to: &mut Lent) -> Front {
        if link == 0 {
            return front;
        }
        if c > 0 {
            let (left, right) = (asked(self.rows, link, 0), asked(self.rows, link, 1));
            if left == 0 {
                return self.level(right, c - 1, n, r, front, to);
            }
            let then = self.level(left, c - 1, n, r, front, to);
            if right == 0 {
                return then;
            }
            return self.level(right, c - 1, n, r, then, to);
        }
        if n > 0 && asked(self.rows, link, DEPTH) <= n {
            return front;
        }
        let stride = self.stride(link, r);
        if n > 0 {
            return self.level(link, stride, n - 1, r - 1, front, to);
        }
        let free = self.fill(link, stride, r - 1, front.base, 0, front.free, to);
        Front { base: front.base + (1 << stride), free }
    }

    /// Writes all rows.
    pub fn lay(&self, root: usize, levels: usize, to: &mut Lent) {
        let free = if root == 0 { 0 } else { 1 << self.stride(root, levels) };
        let mut front = Front { base: 0, free };
        for n in 0..levels {
            front = self.level(root, 0, n, levels, front, to);
        }
    }
}
