//! 01's own examples, line by line, 02's of a discard, matched lengths, links that the gateway hasn't got, and brute
//! force against recurrence on random small tries.

mod bitmaps;
mod links;
mod rules;

use crate::build::{build, chosen, lay, Elements, Record, SCRATCH_ROW};
use crate::choices::*;
use crate::lookup::{lookup, walk, Found};
use crate::random::Random;
use crate::table::{shared_length, Refusal, Table, LINKS};
use crate::tablet;
use crate::trie::Trie;

/// A table from bit strings and hops, with the most links.
fn table(width: u32, entries: &[(&str, u16)]) -> Table {
    let mut table = Table::empty(width, LINKS);
    for (bits, hop) in entries {
        let number = u64::from_str_radix(&format!("0{bits}"), 2).unwrap();
        table.value.push((number << (width - bits.len() as u32)) as u32);
        table.length.push(bits.len() as u8);
        table.hop.push(*hop);
    }
    table
}

fn eight() -> Table {
    table(7, &[("0", 1), ("1", 2), ("10001", 5), ("101", 4), ("11", 3), ("1100", 6), ("110000", 7), ("1100000", 8)])
}

fn room(n: usize) -> Elements {
    Elements { hop: vec![0; n], length: vec![0; n], link: vec![0; n], stride: vec![0; n] }
}

fn built(
    kind: Kind,
    levels: u32,
    table: &Table,
    rows: usize,
    elements: usize,
) -> (Result<(), Refusal>, Record, Elements) {
    let mut lent = room(elements);
    let (outcome, record) = build(kind, levels, table, &mut vec![7; rows * SCRATCH_ROW], &mut lent);
    (outcome, record, lent)
}

/// The record's strides: these, and 0 in the places after them.
fn strides(used: &[u8]) -> [u8; LEVELS] {
    std::array::from_fn(|i| used.get(i).copied().unwrap_or(0))
}

fn number(bits: &str) -> u32 {
    u32::from_str_radix(bits, 2).unwrap()
}

#[test]
fn whole_run() {
    let input = "width=3\nkind=vst\nlevels=2\nlinks=2\nentries=2\nbits=1\nhop=1\nbits=101\nhop=2\nqueries=3\naddress=101\naddress=111\naddress=011\n";
    let output = concat!(
        "refusal=0\ndetail=0\nelements=6\nroot=1\naddress=101\nhop=2\nlength=3\nreads=2\n",
        "address=111\nhop=1\nlength=1\nreads=2\naddress=011\nhop=0\nlength=0\nreads=1\n"
    );
    assert_eq!(tablet::run(input.as_bytes()), output);
    let small = table(3, &[("1", 1), ("101", 2)]);
    let trie = Trie::of(&small);
    let rows = lay(&small, &trie, &choose(Kind::Variable, &trie, 2));
    assert_eq!(rows.hop, [0, 1, 0, 2, 0, 0]);
    assert_eq!(rows.length, [0, 1, 0, 3, 0, 0]);
    assert_eq!(rows.link, [0, 2, 0, 0, 0, 0]);
    assert_eq!(rows.stride, [0, 2, 0, 0, 0, 0]);
}

#[test]
fn eight_prefix_nodes_and_costs() {
    let trie = Trie::of(&eight());
    assert_eq!((0..7).map(|i| trie.nodes_at(i)).collect::<Vec<_>>(), [1, 1, 2, 2, 2, 1, 1]);
    let costs = |kind| (1..=4).map(|k| choose(kind, &trie, k).cost).collect::<Vec<_>>();
    assert_eq!(costs(Kind::Fixed), [128, 32, 20, 18]);
    assert_eq!(costs(Kind::Variable), [128, 26, 20, 18]);
    assert_eq!(fixed(&trie, 2).list, [4, 3]);
    assert_eq!(fixed(&trie, 3).list, [3, 2, 2]);
    assert_eq!(fixed(&trie, 4).list, [1, 2, 2, 2]);
    assert_eq!(fixed_cost(&trie, &[1, 3, 1, 2]), 18);
}

/// 01's addresses with their hops, and the lengths of the entries that have these hops.
const MATCHES: [(&str, u16, u8); 6] =
    [("1100001", 7, 6), ("1100000", 8, 7), ("1100111", 6, 4), ("1101000", 3, 2), ("1000111", 5, 5), ("1001111", 2, 1)];

#[test]
fn eight_prefix_answers() {
    let table = eight();
    for (address, hop, length) in MATCHES {
        assert_eq!(table.answer(number(address)), (hop, length));
    }
    assert_eq!(shared_length(7, number("1000100"), 5, number("1010000"), 3), Ok(2));
    assert_eq!(table.zone(number("1100000"), 4), Ok((5, 3)));
}

#[test]
fn eight_prefix_build() {
    let (outcome, record, rows) = built(Kind::Variable, 2, &eight(), 10, 26);
    assert_eq!(outcome, Ok(()));
    assert_eq!((record.elements, record.strides), (26, strides(&[4])));
    let links: Vec<(u32, u8)> =
        (0..26).filter(|&i| rows.link[i] != 0).map(|i| (rows.link[i], rows.stride[i])).collect();
    assert_eq!(links, [(16, 1), (18, 3)]);
    assert_eq!(lookup(&record, &rows, number("1100001")).unwrap().reads(), 2);
    assert_eq!(lookup(&record, &rows, 0).unwrap().reads(), 1);
    assert_eq!(lookup(&record, &rows, 128), Err(Refusal { number: 8, detail: 0 }));
    assert_eq!(lookup(&record, &rows, 127).unwrap().hop(), 3);
    assert_eq!(built(Kind::Variable, 2, &eight(), 10, 25).0, Err(Refusal { number: 7, detail: 26 }));
    assert_eq!(built(Kind::Variable, 2, &eight(), 9, 26).0, Err(Refusal { number: 6, detail: 10 }));
    for levels in [8, 9, 31, 32] {
        assert_eq!(built(Kind::Variable, levels, &eight(), 10, 26).0, Ok(()));
    }
    // 02: 01's case "k = 9 gives 2" becomes 33.
    assert_eq!(built(Kind::Variable, 33, &eight(), 10, 26).0, Err(Refusal { number: 2, detail: 0 }));
    let (outcome, record, rows) = built(Kind::Fixed, 3, &table(7, &[]), 0, 0);
    assert_eq!(outcome, Ok(()));
    assert_eq!(lookup(&record, &rows, 127), Ok(Found::NoRoute { reads: 0 }));
}

/// One node a level: a stride of 2 costs as much as two of 1, and the smallest first stride wins.
#[test]
fn chain_of_32_nodes() {
    let lengths: Vec<String> = (1..=32).map(|length| "10".repeat(16)[..length].to_string()).collect();
    let chain = table(32, &lengths.iter().map(|bits| (bits.as_str(), bits.len() as u16)).collect::<Vec<_>>());
    let trie = Trie::of(&chain);
    assert_eq!(trie.size(), 32);
    assert_eq!(fixed(&trie, 31).strides(), strides(&[[1; 30].as_slice(), &[2]].concat()));
    for kind in [Kind::Fixed, Kind::Variable] {
        let (outcome, record, rows) = built(kind, 32, &chain, 32, 64);
        assert_eq!((outcome, record.elements), (Ok(()), 64));
        assert_eq!(record.strides, if kind == Kind::Fixed { [1; 32] } else { strides(&[1]) });
        assert_eq!(lookup(&record, &rows, number(&lengths[31])), Ok(Found::of(32, 32, 32)));
        assert_eq!(lookup(&record, &rows, number(&lengths[31]) ^ 1), Ok(Found::of(31, 31, 32)));
        assert_eq!(lookup(&record, &rows, 0), Ok(Found::NoRoute { reads: 1 }));
    }
}

/// 02: n to 65,536. All prefixes of 16 bits have 65,535 nodes in the 1-bit trie.
#[test]
fn most_entries() {
    let mut most = Table { width: 17, links: LINKS, value: vec![], length: vec![16; 65536], hop: vec![1; 65536] };
    most.value = (0..65536).map(|i| 2 * i).collect();
    assert_eq!(most.check(), Ok(()));
    assert_eq!(chosen(Kind::Variable, 3, &most, &mut []).0, Err(Refusal { number: 6, detail: 65535 }));
    assert_eq!(most.zone(131070, 16), Ok((65535, 1)));
    assert_eq!(most.zone(0, 0), Ok((0, 65536)));
    most.value.push(131071);
    most.length.push(17);
    most.hop.push(1);
    assert_eq!(most.check(), Err(Refusal { number: 3, detail: 0 }));
}

/// 02: "With 10→1 and 1010→65,535, address 1010 is discard and 1011 gives hop 1. The tablet prints hop=65535." Refusal 4's hop test
/// keeps only hop 0.
#[test]
fn discarded_corner() {
    let corner = table(4, &[("10", 1), ("1010", 65535)]);
    for (kind, levels) in [(Kind::Fixed, 1), (Kind::Variable, 1), (Kind::Fixed, 2), (Kind::Variable, 4)] {
        let (outcome, record, rows) = built(kind, levels, &corner, 4, 16);
        assert_eq!(outcome, Ok(()));
        let reads = |address| walk(&record, &rows, number(address)).unwrap().rows.len() as u32;
        assert_eq!(lookup(&record, &rows, number("1010")), Ok(Found::Discard { length: 4, reads: reads("1010") }));
        assert_eq!(
            lookup(&record, &rows, number("1011")),
            Ok(Found::Match { hop: 1, length: 2, reads: reads("1011") })
        );
        assert_eq!(lookup(&record, &rows, number("0010")), Ok(Found::NoRoute { reads: reads("0010") }));
    }
    let text = "width=4\nkind=vst\nlevels=2\nlinks=1\nentries=2\nbits=10\nhop=1\nbits=1010\nhop=65535\nqueries=2\naddress=1010\naddress=1011\n";
    let report =
        "refusal=0\ndetail=0\nelements=8\nroot=2\naddress=1010\nhop=65535\nlength=4\nreads=2\naddress=1011\nhop=1\nlength=2\nreads=2\n";
    assert_eq!(tablet::run(text.as_bytes()), report);
    assert_eq!(table(4, &[("10", 65535), ("1010", 0)]).check(), Err(Refusal { number: 4, detail: 1 }));
}

/// 02, [5]: the matched lengths of 01's table, by both kinds and with every level limit.
#[test]
fn matched_lengths() {
    for (kind, levels) in (1..=8).flat_map(|levels| [(Kind::Fixed, levels), (Kind::Variable, levels)]) {
        let (outcome, record, rows) = built(kind, levels, &eight(), 10, 128);
        assert_eq!(outcome, Ok(()));
        for (address, hop, length) in MATCHES {
            let found = lookup(&record, &rows, number(address)).unwrap();
            assert_eq!((found.hop(), found.length()), (hop, length));
        }
    }
    let floor = table(3, &[("", 9), ("1", 65535), ("101", 2)]);
    let (_, record, rows) = built(Kind::Variable, 2, &floor, 3, 6);
    assert_eq!(rows.length, [0, 1, 0, 3, 0, 0]);
    assert_eq!(lookup(&record, &rows, 0), Ok(Found::Match { hop: 9, length: 0, reads: 1 }));
    assert_eq!(lookup(&record, &rows, 4), Ok(Found::Discard { length: 1, reads: 2 }));
}

/// Refusals 7 and 9 count the shortest of four lists.
#[test]
fn the_length_list_alone_too_short() {
    let mut lent = room(26);
    lent.length.pop();
    let before = lent.clone();
    let (outcome, record) = build(Kind::Variable, 2, &eight(), &mut [7; 10 * SCRATCH_ROW], &mut lent);
    assert_eq!((outcome, record), (Err(Refusal { number: 7, detail: 26 }), Record::default()));
    assert_eq!(lent, before);
    let (_, record, mut rows) = built(Kind::Variable, 2, &eight(), 10, 26);
    rows.length.pop();
    assert_eq!(lookup(&record, &rows, 0), Err(Refusal { number: 9, detail: 0 }));
}

/// A length beside a hop is taken as found, as the hop is; one beside hop 0 says nothing.
#[test]
fn lengths_as_found() {
    let (_, mut record, mut rows) = built(Kind::Variable, 2, &table(3, &[("1", 1), ("101", 2)]), 3, 6);
    record.floor = 9;
    for length in [0, 1, 33, 255] {
        rows.length.fill(length);
        assert_eq!(lookup(&record, &rows, 5), Ok(Found::Match { hop: 2, length, reads: 2 }));
        assert_eq!(lookup(&record, &rows, 7), Ok(Found::Match { hop: 1, length, reads: 2 }));
        assert_eq!(lookup(&record, &rows, 0), Ok(Found::Match { hop: 9, length: 0, reads: 1 }));
    }
    record.floor = 0;
    assert_eq!(lookup(&record, &rows, 0).unwrap().length(), 0);
}

#[test]
fn brute_force_is_the_recurrence() {
    let mut random = Random::new(1);
    let mut compared = 0;
    for _ in 0..400 {
        let width = random.within(1, 6) as u32;
        let n = random.within(0, 10) as usize;
        let trie = Trie::of(&random.table(width, n));
        for k in (1..=9).chain([31, 32]) {
            assert_eq!(fixed_brute(&trie, k), fixed(&trie, k));
            if !trie.has("") || variable_count(&trie, "", k) <= 2000 {
                assert_eq!(variable_brute(&trie, k), variable(&trie, k));
                compared += 1;
            }
            assert!(variable(&trie, k).cost <= fixed(&trie, k).cost);
            assert!(k == 1 || variable(&trie, k).cost <= variable(&trie, k - 1).cost);
            assert!(k == 1 || fixed(&trie, k).cost <= fixed(&trie, k - 1).cost);
        }
    }
    assert!(compared > 1000, "only {compared} variable choices were small enough");
}

#[test]
fn builds_answer_longest_match() {
    let mut random = Random::new(2);
    for _ in 0..300 {
        let width = random.within(1, 8) as u32;
        let n = random.within(0, 20) as usize;
        let table = random.table(width, n);
        assert_eq!(table.check(), Ok(()));
        for (kind, k) in [(Kind::Fixed, 1), (Kind::Variable, 2), (Kind::Fixed, 3), (Kind::Variable, 8)] {
            let (outcome, record, rows) = built(kind, k, &table, 256, 256);
            assert_eq!(outcome, Ok(()));
            for address in 0..1u32 << width {
                let found = lookup(&record, &rows, address).unwrap();
                assert_eq!((found.hop(), found.length()), table.answer(address));
                assert!(found.reads() <= k);
            }
        }
    }
}

#[test]
fn scratch_is_zeroed_or_kept() {
    let mut scratch = vec![7; 10 * SCRATCH_ROW + 5];
    assert_eq!(chosen(Kind::Fixed, 2, &eight(), &mut scratch), (Ok(()), 32, strides(&[4, 3])));
    assert!(scratch.iter().all(|x| *x == 0));
    let mut scratch = vec![7; 10 * SCRATCH_ROW - 1];
    assert_eq!(chosen(Kind::Fixed, 2, &eight(), &mut scratch).0, Err(Refusal { number: 6, detail: 10 }));
    assert!(scratch.iter().all(|x| *x == 7));
}
