//! The eight-prefix table: builds it with variable strides and two levels, looks addresses up one by one and in a batch, and asks
//! for a zone. Then checks it for a gateway with one link too few.

use hongsamuk::{build, check, lookup, lookup_batch, zone};
use hongsamuk::{Answer, AnswersMut, Kind, Outcome, Prefix, Rows, RowsMut, Table};

const LEVELS: u32 = 2;
/// Nodes of the table's 1-bit trie, and elements of the build: both are told by a refusal when there are too few.
const NODES: usize = 10;
const ELEMENTS: usize = 26;

const TABLE: Table = Table {
    width: 7,
    links: 8,
    value: &[0b0000000, 0b1000000, 0b1000100, 0b1010000, 0b1100000, 0b1100000, 0b1100000, 0b1100000],
    length: &[1, 1, 5, 3, 2, 4, 6, 7],
    hop: &[1, 2, 5, 4, 3, 6, 7, 8],
};
const ADDRESSES: [u32; 6] = [0b1100001, 0b1100000, 0b1100111, 0b1101000, 0b1000111, 0b1001111];

fn main() {
    let mut scratch = [0u64; NODES * hongsamuk::SCRATCH_ROW];
    let (mut hop, mut length) = ([0; ELEMENTS], [0; ELEMENTS]);
    let (mut link, mut stride) = ([0; ELEMENTS], [0; ELEMENTS]);
    let room = RowsMut { hop: &mut hop, length: &mut length, link: &mut link, stride: &mut stride };
    let built = build(Kind::Variable, LEVELS, TABLE, &mut scratch, room);
    if let Outcome::Refused { number, detail } = built.outcome {
        eprintln!("refused by {number}, detail {detail}");
        std::process::exit(1);
    }
    println!("elements={} root={}", built.record.elements, built.record.strides[0]);
    let rows = Rows { hop: &hop, length: &length, link: &link, stride: &stride };
    for address in ADDRESSES {
        match lookup(&built.record, rows, address) {
            Answer::Match { hop, length, reads } => {
                println!("address={address:07b} hop={hop} length={length} reads={reads}")
            }
            Answer::Discard { length, reads } => {
                println!("address={address:07b} discarded, length={length} reads={reads}")
            }
            Answer::NoRoute { reads } => println!("address={address:07b} no route, reads={reads}"),
            Answer::Refused { number } => println!("address={address:07b} refused by {number}"),
        }
    }
    let (mut number, mut best, mut matched, mut reads) = ([0; 6], [0; 6], [0; 6], [0; 6]);
    let room = AnswersMut { number: &mut number, hop: &mut best, length: &mut matched, reads: &mut reads };
    let answered = lookup_batch(&built.record, rows, &ADDRESSES, room);
    println!("batch of {answered}: hops {best:?}, lengths {matched:?}");
    println!("zone 1100: {:?}", zone(TABLE, Prefix { value: 0b1100000, bits: 4 }));
    // The last entry has hop 8.
    let fewer = Table { links: 7, ..TABLE };
    let Outcome::Refused { number, detail } = check(fewer) else { panic!("accepted with {} links", fewer.links) };
    println!("links={}: refused by {number}, detail {detail}", fewer.links);
}
