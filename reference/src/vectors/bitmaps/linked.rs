//! Tree bitmaps of tables with numbers of links that are enough or too few (02, [7]).

use super::{built, hold, look, needed, print, risen, sweep_all, table, Left, Lent, HOPS, ROWS};
use crate::bitmap::{build, Supernodes};
use crate::table::{Table, LINKS};
use crate::vectors::choosers::SCRATCH;
use crate::vectors::links::{otherwise_good, refused_before, risings, small};
use crate::vectors::{rising, Rising, Vectors};

/// Lists for a build that is refused before it looks at them, or needs none.
const NOTHING: Lent = Lent { words: 0, rows: [0; 4], hops: 0 };

/// What a build leaves is what it leaves with the most links.
fn hold_rows(table: &Table, left: &Left) {
    let (n, hops) = (left.rows.internal.len(), left.rows.hop_row.len());
    let mut rows = Supernodes {
        internal: vec![9; n],
        external: vec![9; n],
        first_child: vec![9; n],
        first_hop: vec![9; n],
        hop_row: vec![9; hops],
    };
    let (outcome, record) = build(&table.with_links(LINKS), &mut vec![7; needed(table).words], &mut rows);
    assert!(outcome.is_ok() && record == left.record && rows == left.rows, "links change a bitmap");
}

/// With enough links the rows, and all answers. A hop is told before the want of scratch or rows.
fn tried(vectors: &mut Vectors, made: &Table) {
    let left = built(vectors, made, needed(made));
    print(vectors, &left);
    if left.record.width > 0 {
        hold_rows(made, &left);
        sweep_all(vectors, made, &left);
    }
    built(vectors, made, NOTHING);
    built(vectors, made, Lent { words: needed(made).words, ..NOTHING });
}

pub fn hops(vectors: &mut Vectors) {
    for made in small().into_iter().chain(refused_before()) {
        table(vectors, &made);
        let left = built(vectors, &made, Lent { words: 61, rows: [2; 4], hops: 5 });
        print(vectors, &left);
    }
    for made in otherwise_good() {
        table(vectors, &made);
        tried(vectors, &made);
    }
}

/// Many entries, with just enough links and one less; then the most, without room.
pub fn most(vectors: &mut Vectors) {
    for links in [4097, 4096] {
        let made = risen(vectors, Rising { links, ..rising(13, 4097, 13) });
        let left = built(vectors, &made, needed(&made));
        look(vectors, &left, 4096);
        if left.record.width > 0 {
            hold_rows(&made, &left);
        }
    }
    for links in [65534, 65533] {
        let made = risen(vectors, Rising { links, ..rising(32, 65536, 19) });
        let left = built(vectors, &made, Lent { words: SCRATCH, rows: [ROWS; 4], hops: HOPS });
        look(vectors, &left, made.value[65533]);
        if left.record.width > 0 {
            hold(&made, &left, made.value[65533]);
        }
    }
    for rising in risings() {
        let made = risen(vectors, rising);
        built(vectors, &made, NOTHING);
    }
}
