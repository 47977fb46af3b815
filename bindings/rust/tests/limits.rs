//! The most levels and the most entries, and one more of each.

use hongsamuk::*;

/// Entry i is the number i in 17 bits; the first bit of the most that a table may have is 0.
const WIDTH: u32 = 17;
const MOST: u32 = ENTRIES as u32;
/// Their nodes: one at level 0, then 1, 2, 4 .. 32,768.
const NODES: usize = 65_536;
/// Their elements: a root block of 1 bit, and one of 16.
const ROWS: usize = 2 + 65_536;

struct Routes {
    value: Vec<u32>,
    length: Vec<u8>,
    hop: Vec<u16>,
}

impl Routes {
    fn new(n: u32) -> Routes {
        let hop = (0..n).map(own_hop).collect();
        Routes { value: (0..n).collect(), length: vec![WIDTH as u8; n as usize], hop }
    }

    fn table(&self) -> Table<'_> {
        Table { width: WIDTH, links: LINKS, value: &self.value, length: &self.length, hop: &self.hop }
    }
}

/// Entry 65,534 discards.
fn own_hop(i: u32) -> u16 {
    (1 + i % 65_535) as u16
}

fn own_answer(i: u32, reads: u32) -> Answer {
    match own_hop(i) {
        DISCARD => Answer::Discard { length: WIDTH as u8, reads },
        hop => Answer::Match { hop, length: WIDTH as u8, reads },
    }
}

fn refused(number: u32, detail: u64) -> Outcome {
    Outcome::Refused { number, detail }
}

#[test]
fn the_most_entries() {
    let (most, more) = (Routes::new(MOST), Routes::new(MOST + 1));
    assert_eq!(check(most.table()), Outcome::Accepted);
    assert_eq!(check(more.table()), refused(3, 0));
    let last = Prefix { value: MOST - 1, bits: WIDTH as u8 };
    assert_eq!(zone_span(most.table(), last), Span::Part { index: MOST - 1, count: 1 });
    assert_eq!(zone_span(most.table(), Prefix { value: 0, bits: 1 }), Span::Part { index: 0, count: MOST });
    assert_eq!(zone_span(more.table(), last), Span::Refused { number: 3, detail: 0 });
    for kind in [Kind::Fixed, Kind::Variable] {
        assert_eq!(choose(kind, 3, most.table(), &mut []).outcome, refused(6, NODES as u64));
        assert_eq!(choose(kind, 3, more.table(), &mut []).outcome, refused(3, 0));
    }
}

#[test]
fn the_most_entries_in_elements() {
    let most = Routes::new(MOST);
    let mut scratch = vec![7; NODES * SCRATCH_ROW];
    for kind in [Kind::Fixed, Kind::Variable] {
        let (mut hop, mut length) = (vec![9; ROWS], vec![9; ROWS]);
        let (mut link, mut stride) = (vec![9; ROWS], vec![9; ROWS]);
        let rows = RowsMut { hop: &mut hop, length: &mut length, link: &mut link, stride: &mut stride };
        let Built { outcome, record } = build(kind, LEVELS as u32, most.table(), &mut scratch, rows);
        assert_eq!((outcome, record.elements as usize, record.strides[0]), (Outcome::Accepted, ROWS, 1));
        assert!(scratch.iter().all(|x| *x == 0));
        let rows = Rows { hop: &hop, length: &length, link: &link, stride: &stride };
        for address in 0..MOST {
            assert_eq!(lookup(&record, rows, address), own_answer(address, 2));
        }
        assert_eq!(lookup(&record, rows, MOST), Answer::NoRoute { reads: 1 });
        scratch.fill(7);
    }
}

#[test]
fn the_most_entries_in_a_bitmap() {
    let (most, more) = (Routes::new(MOST), Routes::new(MOST + 1));
    let made = |table: Table, rows: usize, hops: usize| {
        let (mut internal, mut external, mut hop_row) = (vec![9; rows], vec![9; rows], vec![9; hops]);
        let (mut first_child, mut first_hop) = (vec![9; rows], vec![9; rows]);
        let room = BitmapRowsMut {
            internal: &mut internal,
            external: &mut external,
            first_child: &mut first_child,
            first_hop: &mut first_hop,
            hop_row: &mut hop_row,
        };
        // of the binary trie every entry is a node too
        let built = build_bitmap(table, &mut vec![7; (NODES + ENTRIES) * NODE_ROW], room);
        (built, internal, external, first_child, first_hop, hop_row)
    };
    // at levels 0, 4, 8, 12 and 16
    let rows = 1 + 8 + 128 + 2048 + 32_768;
    assert_eq!(made(more.table(), rows, ENTRIES).0.outcome, refused(3, 0));
    assert_eq!(made(most.table(), rows, ENTRIES - 1).0.outcome, refused(7, ENTRIES as u64));
    assert_eq!(made(most.table(), rows - 1, ENTRIES).0.outcome, refused(7, rows as u64));
    let (built, internal, external, first_child, first_hop, hop_row) = made(most.table(), rows, ENTRIES);
    assert_eq!(built.outcome, Outcome::Accepted);
    let rows = BitmapRows {
        internal: &internal,
        external: &external,
        first_child: &first_child,
        first_hop: &first_hop,
        hop_row: &hop_row,
    };
    for address in 0..MOST {
        assert_eq!(lookup_bitmap(&built.record, rows, address), own_answer(address, 5));
    }
    assert_eq!(lookup_bitmap(&built.record, rows, MOST), Answer::NoRoute { reads: 1 });
}

/// One entry of 32 bits has 32 nodes, one a level. Strides of 1 and of 2 cost as much, so the tie decides: with 32 levels all are 1.
#[test]
fn the_most_levels() {
    let chain = Table { width: 32, links: LINKS, value: &[0xc0a8_0101], length: &[32], hop: &[9] };
    for kind in [Kind::Fixed, Kind::Variable] {
        for (levels, reads) in [(9, 9), (31, 31), (32, 32)] {
            let mut scratch = vec![7; 32 * SCRATCH_ROW];
            let chosen = choose(kind, levels, chain, &mut scratch);
            let (mut hop, mut length) = (vec![9; 128], vec![9; 128]);
            let (mut link, mut stride) = (vec![9; 128], vec![9; 128]);
            let rows = RowsMut { hop: &mut hop, length: &mut length, link: &mut link, stride: &mut stride };
            let Built { outcome, record } = build(kind, levels, chain, &mut scratch, rows);
            assert_eq!(outcome, Outcome::Accepted);
            assert_eq!((record.levels, record.elements as u64, record.strides), (levels, chosen.cost, chosen.strides));
            if kind == Kind::Fixed && levels == 32 {
                assert_eq!((record.elements, record.strides), (64, [1; LEVELS]));
            }
            let rows = Rows { hop: &hop, length: &length, link: &link, stride: &stride };
            assert_eq!(lookup(&record, rows, 0xc0a8_0101), Answer::Match { hop: 9, length: 32, reads });
            assert_eq!(lookup(&record, rows, 0xc0a8_0100), Answer::NoRoute { reads });
            let fewer = Record { levels: levels - 1, ..record };
            assert_eq!(lookup(&fewer, rows, 0xc0a8_0101), Answer::Refused { number: 9 });
        }
        assert_eq!(choose(kind, 33, chain, &mut []).outcome, refused(2, 0));
    }
}
