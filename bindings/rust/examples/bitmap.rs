//! The eight-prefix table both ways: as a tree bitmap and in elements. Asks the build of the bitmap for its room, and shows that every
//! address gets the same hop and the same length.

use hongsamuk::{build, build_bitmap, lookup, lookup_bitmap, Answer, Bitmap, BitmapRows, BitmapRowsMut};
use hongsamuk::{BuiltBitmap, Kind, Outcome, Record, Rows, RowsMut, Table, NODE_ROW, SCRATCH_ROW};

const TABLE: Table = Table {
    width: 7,
    links: 8,
    value: &[0b0000000, 0b1000000, 0b1000100, 0b1010000, 0b1100000, 0b1100000, 0b1100000, 0b1100000],
    length: &[1, 1, 5, 3, 2, 4, 6, 7],
    hop: &[1, 2, 5, 4, 3, 6, 7, 8],
};
/// Nodes of the table's 1-bit trie, and elements with two levels.
const NODES: usize = 10;
const ELEMENTS: usize = 26;

/// Room for a bitmap, and then the bitmap.
#[derive(Default)]
struct Lists {
    scratch: Vec<u64>,
    internal: Vec<u16>,
    external: Vec<u16>,
    first_child: Vec<u32>,
    first_hop: Vec<u32>,
    hop_row: Vec<u16>,
}

impl Lists {
    fn build(&mut self) -> BuiltBitmap {
        let room = BitmapRowsMut {
            internal: &mut self.internal,
            external: &mut self.external,
            first_child: &mut self.first_child,
            first_hop: &mut self.first_hop,
            hop_row: &mut self.hop_row,
        };
        build_bitmap(TABLE, &mut self.scratch, room)
    }

    fn rows(&self) -> BitmapRows<'_> {
        BitmapRows {
            internal: &self.internal,
            external: &self.external,
            first_child: &self.first_child,
            first_hop: &self.first_hop,
            hop_row: &self.hop_row,
        }
    }
}

/// What a refusal for room says is needed.
fn needed(built: BuiltBitmap) -> usize {
    match built.outcome {
        Outcome::Refused { number: number @ 6..=7, detail } => {
            println!("refused by {number}, detail {detail}");
            detail as usize
        }
        other => panic!("no refusal for room: {other:?}"),
    }
}

fn bitmap() -> (Bitmap, Lists) {
    // There are as many hops as entries. With no scratch the build says how much it needs, then with no supernode how many.
    let mut lists = Lists { hop_row: vec![0; TABLE.hop.len()], ..Lists::default() };
    lists.scratch = vec![0; needed(lists.build()) * NODE_ROW];
    let supernodes = needed(lists.build());
    (lists.internal, lists.external) = (vec![0; supernodes], vec![0; supernodes]);
    (lists.first_child, lists.first_hop) = (vec![0; supernodes], vec![0; supernodes]);
    let built = lists.build();
    assert_eq!(built.outcome, Outcome::Accepted);
    (built.record, lists)
}

/// The element rows.
struct Elements {
    hop: Vec<u16>,
    length: Vec<u8>,
    link: Vec<u32>,
    stride: Vec<u8>,
}

impl Elements {
    fn rows(&self) -> Rows<'_> {
        Rows { hop: &self.hop, length: &self.length, link: &self.link, stride: &self.stride }
    }
}

fn elements() -> (Record, Elements) {
    let (mut hop, mut length) = (vec![0; ELEMENTS], vec![0; ELEMENTS]);
    let (mut link, mut stride) = (vec![0; ELEMENTS], vec![0; ELEMENTS]);
    let room = RowsMut { hop: &mut hop, length: &mut length, link: &mut link, stride: &mut stride };
    let built = build(Kind::Variable, 2, TABLE, &mut [0; NODES * SCRATCH_ROW], room);
    assert_eq!(built.outcome, Outcome::Accepted);
    (built.record, Elements { hop, length, link, stride })
}

fn main() {
    let (record, lists) = bitmap();
    for i in 0..record.supernodes as usize {
        println!(
            "supernode {i}: internal={:015b} external={:016b} first child={} first hop={}",
            lists.internal[i], lists.external[i], lists.first_child[i], lists.first_hop[i]
        );
    }
    println!("hops {:?}", lists.hop_row);
    let (other, elements) = elements();
    let address = 0b1100001;
    if let Answer::Match { hop, length, reads } = lookup_bitmap(&record, lists.rows(), address) {
        println!("address={address:07b} hop={hop} length={length} reads={reads}");
    }
    let same = (0..1 << TABLE.width).filter(|&address| {
        let won = lookup_bitmap(&record, lists.rows(), address).won();
        won.is_some() && won == lookup(&other, elements.rows(), address).won()
    });
    let same = same.count();
    println!("the same hop and length as from elements: {same} of {} addresses", 1 << TABLE.width);
    assert_eq!(same, 128);
}
