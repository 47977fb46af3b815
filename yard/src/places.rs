//! Where the blocks of a picture stand: a column a level, four levels side by side. The next four begin a new band below.

use crate::blocks::Block;
use crate::picture::{Place, WIDE};

pub const MARGIN: f64 = 24.0;
/// A block: its width, its head and a row.
pub const BLOCK: f64 = 250.0;
pub const HEAD: f64 = 40.0;
pub const ROW: f64 = 18.0;
/// Between a block and the next below it.
const SPACE: f64 = 16.0;
/// The levels of a band.
const BAND: usize = 4;
/// The farthest that the left sides of two levels stand apart.
const FARTHEST: f64 = 380.0;
/// Above the first band, and for the names of the levels above each.
const TITLES: f64 = 62.0;
const NAMES: f64 = 28.0;

pub struct Places {
    /// The upper left corner of each block.
    pub corners: Vec<Place>,
    /// Where the name of each level stands.
    pub names: Vec<Place>,
    pub bottom: f64,
}

/// Whether an arrow goes from one level to the next within a band.
pub fn is_beside(level: usize) -> bool {
    level % BAND != 0
}

/// The middle of a block's head, where arrows arrive, below its corner.
pub const ARRIVAL: f64 = HEAD / 2.0;

/// The middle of a run's row, below the block's corner.
pub fn middle(run: usize) -> f64 {
    HEAD + ROW * (run as f64 + 0.5)
}

pub fn height(block: &Block) -> f64 {
    HEAD + ROW * block.runs.len() as f64
}

/// Blocks come level by level; each stands beside the row that links to it, or as near below as there is room.
pub fn places(blocks: &[Block]) -> Places {
    let levels = blocks.iter().map(|block| block.level).max().unwrap_or(0);
    let columns = Columns::of(levels);
    let mut places = Places { corners: Vec::new(), names: Vec::new(), bottom: TITLES };
    let mut beside = vec![0.0; blocks.len()];
    let (mut top, mut free) = (TITLES, TITLES);
    for (i, block) in blocks.iter().enumerate() {
        let x = columns.left(block.level);
        if places.names.len() < block.level {
            if !is_beside(block.level - 1) {
                top = places.bottom;
            }
            places.names.push((x, top + NAMES / 2.0));
            free = top + NAMES;
        }
        let y = f64::max(free, beside[i]);
        places.corners.push((x, y));
        free = y + height(block) + SPACE;
        places.bottom = places.bottom.max(free);
        for (run, child) in block.runs.iter().enumerate().filter_map(|(run, one)| one.child.map(|child| (run, child))) {
            beside[child] = if is_beside(block.level) { y + middle(run) - ARRIVAL } else { 0.0 };
        }
    }
    places
}

struct Columns {
    first: f64,
    apart: f64,
}

impl Columns {
    /// The columns of so many levels, in the middle of the picture.
    fn of(levels: usize) -> Columns {
        let gaps = levels.clamp(1, BAND) as f64 - 1.0;
        let apart = f64::min(FARTHEST, (WIDE - 2.0 * MARGIN - BLOCK) / gaps.max(1.0));
        Columns { first: (WIDE - BLOCK - gaps * apart) / 2.0, apart }
    }

    fn left(&self, level: usize) -> f64 {
        self.first + self.apart * ((level - 1) % BAND) as f64
    }
}
