//! What a Rust programmer would write instead of the archive: the same rows, tests and algorithm in safe Rust, but for the pointers
//! of the header's call. Bounds checks are those that the compiler leaves in.

mod builder;
mod building;
mod costs;
mod fixed;
mod rows;
mod scan;
mod supernodes;
mod table;
mod verdicts;
mod visits;
mod walk;

pub use building::{build, Lent, SCRATCH_ROW};
pub use scan::{mask, ranked, scan, winner, Ranked};
pub use supernodes::{build_bitmap, NODE_ROW};
pub use table::Table;
pub use verdicts::classify;
pub use visits::lookup_bitmap;
pub use walk::{lookup, lookup_batch, lookup_by_reference, Answers, Elements};

/// The widest address.
const WIDTH: u32 = 32;
/// The most levels.
const LEVELS: usize = 32;
