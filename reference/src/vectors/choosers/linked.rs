//! The choosers over tables with numbers of links that are enough or too few (02, [7]).

use super::{choose, enough, risen, table, KINDS};
use crate::build::{chosen, SCRATCH_ROW};
use crate::choices::Kind;
use crate::table::{Table, LINKS};
use crate::vectors::links::{otherwise_good, refused_before, risings, small};
use crate::vectors::Vectors;

/// With enough links the answer is that with the most. A hop is told before the want of scratch, a level limit before a hop.
fn tried(vectors: &mut Vectors, made: &Table) {
    let answer = |table: &Table, kind| chosen(kind, 3, table, &mut vec![7; enough(table)]);
    for kind in KINDS {
        if made.check().is_ok() {
            assert!(answer(made, kind) == answer(&made.with_links(LINKS), kind), "links change a choice");
        }
        for (levels, places) in [(1, enough(made)), (3, enough(made)), (32, 0), (33, 0)] {
            choose(vectors, made, kind, levels, places);
        }
    }
}

pub fn hops(vectors: &mut Vectors) {
    for made in small().into_iter().chain(refused_before()) {
        table(vectors, &made);
        KINDS.into_iter().for_each(|kind| choose(vectors, &made, kind, 2, 2 * SCRATCH_ROW));
    }
    for made in otherwise_good() {
        table(vectors, &made);
        tried(vectors, &made);
    }
}

/// The most entries, whose nodes no scratch here is enough for.
pub fn most(vectors: &mut Vectors) {
    for rising in risings() {
        let made = risen(vectors, rising);
        choose(vectors, &made, Kind::Fixed, 32, 0);
        choose(vectors, &made, Kind::Variable, 3, 720);
    }
}
