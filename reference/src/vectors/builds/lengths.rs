//! The fourth element list (02, [5]): the length of the entry whose hop a row has. The list alone too short, empty or
//! longer than the others; and any lengths in it, which a lookup takes as found.

use super::{built, look, name, nodes, record, rows, sweep, table, Left, KINDS};
use crate::build::Elements;
use crate::choices::Kind;
use crate::lookup::{lookup, walk, Damage, Path};
use crate::table::{Refusal, DISCARD};
use crate::vectors::{eight, Vectors};

/// Counts builds that the length list alone decides.
pub fn count_build(vectors: &mut Vectors, kind: Kind, answer: Result<(), Refusal>, rows: &Elements) {
    let enough = |needed: u64| rows.shortest_but_lengths() as u64 >= needed;
    if answer.is_err_and(|refusal| refusal.number == 7 && enough(refusal.detail)) {
        vectors.hit(&format!("{} refused for the length list alone", name(kind)));
    }
    if answer.is_ok() && rows.length.len() > rows.hop.len().max(rows.link.len()).max(rows.stride.len()) {
        vectors.hit("length list alone longer");
    }
}

/// Counts what a lookup met in the length list.
pub fn count_lookup(vectors: &mut Vectors, left: &Left, address: u32) {
    match lookup(&left.record, &left.rows, address) {
        Ok(_) => count_path(vectors, left, &walk(&left.record, &left.rows, address).expect("accepted")),
        Err(refusal) if refusal.number == 9 => {
            let short = walk(&left.record, &left.rows, address) == Err(Damage::ListsTooShort);
            if short && left.rows.shortest_but_lengths() >= left.record.elements as usize {
                vectors.hit("damage in the length list alone");
            }
        }
        Err(_) => (),
    }
}

fn count_path(vectors: &mut Vectors, left: &Left, path: &Path) {
    let Elements { hop, length, .. } = &left.rows;
    let by_the_floor = path.rows.iter().all(|row| hop[*row] == 0);
    match (path.hop, by_the_floor) {
        (0, _) => (),
        (DISCARD, true) => vectors.hit("discard by the floor"),
        (_, true) => vectors.hit("match by the floor"),
        (_, false) if path.length == 0 => vectors.hit("length 0 of a row taken as found"),
        (_, false) if path.length > 32 => vectors.hit("length above 32 taken as found"),
        _ => (),
    }
    if path.rows.iter().any(|row| hop[*row] == 0 && length[*row] > 0) {
        vectors.hit("length beside hop 0 passed by");
    }
}

/// What an accepted build of the eight-prefix table leaves in lists just long enough.
fn sound(vectors: &mut Vectors, kind: Kind, levels: u32) -> Left {
    let eight = eight();
    let needed = built(vectors, &eight, kind, levels, (nodes(&eight), [128; 4])).record.elements as usize;
    built(vectors, &eight, kind, levels, (nodes(&eight), [needed; 4]))
}

/// Builds and lookups with a length list of another length than the other three.
pub fn lists(vectors: &mut Vectors) {
    let eight = eight();
    table(vectors, &eight);
    for (kind, levels) in KINDS.into_iter().flat_map(|kind| [(kind, 2), (kind, 3), (kind, 4), (kind, 32)]) {
        let good = sound(vectors, kind, levels);
        let e = good.record.elements as usize;
        for (length, more) in [(e - 1, 0), (e - 1, 3), (0, 0), (e, 2), (e + 1, 0)] {
            let lists = [e + more, length, e + more, e + more];
            let left = built(vectors, &eight, kind, levels, (nodes(&eight), lists));
            rows(vectors, &left);
            look(vectors, &left, 97);
        }
        for length in [e - 1, 0, e + 1, e + 5] {
            let mut left = good.clone();
            left.rows.length.resize(length, 6);
            record(vectors, &mut left, 0);
            [0, 97, 127, 128].into_iter().for_each(|address| look(vectors, &left, address));
        }
    }
}

/// Lengths that no build writes, in rows with a hop and in rows without one, and floors besides.
pub fn damaged(vectors: &mut Vectors) {
    table(vectors, &eight());
    let good = sound(vectors, Kind::Variable, 2);
    for length in [0, 1, 7, 32, 33, 128, 255] {
        for floor in [0, 3, DISCARD] {
            let mut left = good.clone();
            left.record.floor = floor;
            left.rows.length.fill(length);
            record(vectors, &mut left, 0);
            sweep(vectors, &left, 129);
            left.rows.hop[..16].fill(0);
            record(vectors, &mut left, 0);
            sweep(vectors, &left, 129);
            left.rows.hop.fill(0);
            record(vectors, &mut left, 0);
            [0, 71, 97, 127].into_iter().for_each(|address| look(vectors, &left, address));
        }
    }
}
