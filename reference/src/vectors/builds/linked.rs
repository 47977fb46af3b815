//! Builds of tables with numbers of links that are enough or too few (02, [7]).

use super::{built, nodes, risen, rows, sweep_all, table, Left, KINDS};
use crate::build::{build, Elements, SCRATCH_ROW};
use crate::choices::Kind;
use crate::table::{Table, LINKS};
use crate::vectors::links::{otherwise_good, refused_before, risings, small};
use crate::vectors::{rising, Rising, Vectors};

/// What a build leaves is what it leaves with the most links.
fn hold_rows(table: &Table, kind: Kind, left: &Left) {
    let n = left.rows.hop.len();
    let mut rows = Elements { hop: vec![9; n], length: vec![5; n], link: vec![9; n], stride: vec![9; n] };
    let levels = left.record.levels;
    let (outcome, record) = build(kind, levels, &table.with_links(LINKS), &mut vec![7; nodes(table)], &mut rows);
    assert!(outcome.is_ok() && record == left.record && rows == left.rows, "links change a build");
}

/// With enough links the rows, and all answers. A hop is told before the want of scratch or rows, a level limit before a
/// hop.
fn tried(vectors: &mut Vectors, made: &Table) {
    for kind in KINDS {
        for levels in [1, 3] {
            let left = built(vectors, made, kind, levels, (nodes(made), [128; 4]));
            if left.record.width > 0 {
                hold_rows(made, kind, &left);
                rows(vectors, &left);
                sweep_all(vectors, made, &left);
            }
        }
        built(vectors, made, kind, 32, (0, [0; 4]));
        built(vectors, made, kind, 3, (nodes(made), [0; 4]));
        built(vectors, made, kind, 33, (0, [0; 4]));
    }
}

pub fn hops(vectors: &mut Vectors) {
    for made in small().into_iter().chain(refused_before()) {
        table(vectors, &made);
        for kind in KINDS {
            let left = built(vectors, &made, kind, 2, (2 * SCRATCH_ROW, [8; 4]));
            rows(vectors, &left);
        }
    }
    for made in otherwise_good() {
        table(vectors, &made);
        tried(vectors, &made);
    }
}

/// As many entries as scratch has rows for, with just enough links and one less; then the most, whose nodes no scratch here
/// is enough for.
pub fn most(vectors: &mut Vectors) {
    for links in [8193, 8192, 8191, 0] {
        let made = risen(vectors, Rising { links, ..rising(14, 8192, 13) });
        for kind in KINDS {
            let left = built(vectors, &made, kind, 4, (nodes(&made), [8200; 4]));
            if left.record.width > 0 {
                hold_rows(&made, kind, &left);
            }
        }
    }
    for rising in risings() {
        let made = risen(vectors, rising);
        built(vectors, &made, Kind::Fixed, 32, (0, [10, 13, 11, 12]));
        built(vectors, &made, Kind::Variable, 3, (720, [10, 13, 11, 12]));
    }
}
