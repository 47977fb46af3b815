//! The seven rules of source document 004's figure 3: asks the build for its room, builds them with variable strides and two levels, and
//! judges packets by their two addresses.

use hongsamuk::{build_rules, classify, BuiltRules, Kind, Outcome, Rows, RowsMut, Rules, Verdict};
use hongsamuk::{SCRATCH_ROW, TRIE_ROW};
use std::collections::BTreeSet;

const LEVELS: u32 = 2;

/// An action is the number of its filter in the figure.
const RULES: Rules = Rules {
    width: 4,
    links: 7,
    dest_value: &[0, 0, 0, 0, 0, 0, 0b0001],
    dest_length: &[1, 1, 1, 1, 3, 3, 4],
    source_value: &[0b1000, 0b1100, 0b1110, 0b1111, 0b1000, 0b1100, 0b0000],
    source_length: &[1, 4, 4, 4, 2, 2, 3],
    action: &[7, 1, 2, 3, 4, 5, 6],
};
const PACKETS: [(u32, u32); 6] =
    [(0b0001, 0b1110), (0b0001, 0b0001), (0b0001, 0b0111), (0b0010, 0b1110), (0b0111, 0b1000), (0b1000, 0b1110)];

/// Room for all tries, and then the tries.
#[derive(Default)]
struct Lists {
    scratch: Vec<u64>,
    hop: Vec<u16>,
    length: Vec<u8>,
    link: Vec<u32>,
    stride: Vec<u8>,
    list: Vec<u32>,
}

impl Lists {
    fn build(&mut self) -> BuiltRules {
        let (hop, length, link, stride) = (&mut self.hop, &mut self.length, &mut self.link, &mut self.stride);
        let rows = RowsMut { hop, length, link, stride };
        build_rules(Kind::Variable, LEVELS, RULES, &mut self.scratch, rows, &mut self.list)
    }

    fn rows(&self) -> Rows<'_> {
        Rows { hop: &self.hop, length: &self.length, link: &self.link, stride: &self.stride }
    }
}

/// What a refusal for room says is needed; nothing, where the build is accepted as it is.
fn needed(built: BuiltRules) -> usize {
    match built.outcome {
        Outcome::Accepted => 0,
        Outcome::Refused { number: number @ 6..=7, detail } => {
            println!("refused by {number}, detail {detail}");
            detail as usize
        }
        other => panic!("neither accepted nor refused for room: {other:?}"),
    }
}

fn main() {
    // There are no more destinations than rules, so the list has a row for each rule. With no scratch the build then says how much it
    // needs, and with no element how many.
    let mut lists = Lists { list: vec![0; RULES.action.len() * TRIE_ROW], ..Lists::default() };
    lists.scratch = vec![0; needed(lists.build()) * SCRATCH_ROW];
    let elements = needed(lists.build());
    (lists.hop, lists.length) = (vec![0; elements], vec![0; elements]);
    (lists.link, lists.stride) = (vec![0; elements], vec![0; elements]);
    let built = lists.build();
    assert_eq!(built.outcome, Outcome::Accepted);
    println!("elements={} of them for destinations={}", built.record.elements, built.record.dest.elements);
    let dests: BTreeSet<_> = RULES.dest_value.iter().zip(RULES.dest_length).collect();
    for (g, row) in lists.list.chunks_exact(TRIE_ROW).take(dests.len()).enumerate() {
        let [floor, root, place, elements, next] = row else { unreachable!("a row of five") };
        println!("source trie {}: floor={floor} root={root} place={place} elements={elements} next={next}", g + 1);
    }
    for (dest, source) in PACKETS {
        let packet = format!("destination={dest:04b} source={source:04b}");
        match classify(&built.record, lists.rows(), &lists.list, dest, source) {
            Verdict::Act { action, reads } => println!("{packet} action={action} reads={reads}"),
            Verdict::Discard { reads } => println!("{packet} discarded, reads={reads}"),
            Verdict::NoRule { reads } => println!("{packet} no rule, reads={reads}"),
            Verdict::Refused { number } => println!("{packet} refused by {number}"),
        }
    }
}
