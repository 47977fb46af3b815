//! Checks and zones of tables with numbers of links that are enough or too few (02, [7]).

use super::{relisted, risen, table, zone};
use crate::vectors::links::{otherwise_good, refused_before, risings, small};
use crate::vectors::{eight, over, rising, Rising, Vectors};

pub fn hops(vectors: &mut Vectors) {
    for made in small().into_iter().chain(otherwise_good()).chain(refused_before()) {
        table(vectors, &made);
        zone(vectors, &made, made.value[0], made.length[0]);
    }
    // The prefix that is asked about is tested after the table.
    for made in [0, 4, 8].map(|links| eight().with_links(links)) {
        table(vectors, &made);
        [(97, 4), (96, 8), (128, 1)].into_iter().for_each(|(prefix, length)| zone(vectors, &made, prefix, length));
    }
}

/// The most entries. Entry i has hop 1 + i mod 65,535.
pub fn most(vectors: &mut Vectors) {
    for rising in risings() {
        let made = risen(vectors, rising);
        zone(vectors, &made, 65535, 16);
    }
    let of_32 = |entries, length| Rising { links: 7, ..rising(32, entries, length) };
    // Entry 40,000 does not stand above the one before; entry 65,535 is no prefix.
    for (first, second, numbers) in [
        (of_32(65537, 20), of_32(40000, 16), [39999, 40000, 40001, 65534]),
        (of_32(65537, 15), of_32(65535, 16), [1, 65532, 65533, 65534]),
    ] {
        risen(vectors, first);
        risen(vectors, second);
        for links in numbers {
            let made = relisted(vectors, &over(first, second).with_links(links), [65536; 3]);
            zone(vectors, &made, 0, 32);
        }
    }
}
