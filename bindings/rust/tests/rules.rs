//! Rules of two fields (02, [6]): the seven of source document 004's figure 3 in every kind and level limit, each refusal, what the lists
//! then hold, chains of nested destinations, and damaged records, rows and lists.

mod common;

use common::{MadeRules, KINDS};
use hongsamuk::*;

/// Figure 3 of source document 004, in the order that 02 asks for; an action is the number of its filter.
const SEVEN: Rules = Rules {
    width: 4,
    links: LINKS,
    dest_value: &[0, 0, 0, 0, 0, 0, 0b0001],
    dest_length: &[1, 1, 1, 1, 3, 3, 4],
    source_value: &[0b1000, 0b1100, 0b1110, 0b1111, 0b1000, 0b1100, 0b0000],
    source_length: &[1, 4, 4, 4, 2, 2, 3],
    action: &[7, 1, 2, 3, 4, 5, 6],
};
/// What they take: 4 nodes for the destinations and 5, 2 and 3 for the sources, and with one level 16 elements and 16, 4 and 8.
const WORDS: usize = 14 * SCRATCH_ROW;
const ROWS: usize = 44;
const NUMBERS: usize = 3 * TRIE_ROW;

/// With one level, in just enough room: each trie is one block.
fn seven() -> MadeRules {
    let made = MadeRules::of(Kind::Variable, 1, SEVEN, WORDS, ROWS, NUMBERS);
    assert_eq!(made.built.outcome, Outcome::Accepted);
    made
}

fn refused(number: u32, detail: u64) -> BuiltRules {
    BuiltRules { outcome: Outcome::Refused { number, detail }, record: RuleRecord::default() }
}

/// The action of the rule that wins, by 02's words: a scan over the rules.
fn winner(rules: Rules, dest: u32, source: u32) -> Option<u16> {
    let begins = |value: u32, length: u8, address: u32| {
        let left = rules.width - u32::from(length);
        u64::from(value) >> left == u64::from(address) >> left
    };
    let matches = |i: &usize| {
        begins(rules.dest_value[*i], rules.dest_length[*i], dest)
            && begins(rules.source_value[*i], rules.source_length[*i], source)
    };
    let longest = (0..rules.action.len()).filter(matches);
    longest.max_by_key(|i| (rules.dest_length[*i], rules.source_length[*i])).map(|i| rules.action[i])
}

#[test]
fn one_answer_from_every_build() {
    for kind in KINDS {
        for levels in (1..=5).chain([LEVELS as u32]) {
            let made = MadeRules::of(kind, levels, SEVEN, WORDS, ROWS, NUMBERS);
            assert_eq!(made.built.outcome, Outcome::Accepted);
            for (dest, source) in (0..16).flat_map(|dest| (0..16).map(move |source| (dest, source))) {
                let verdict = made.classify(dest, source);
                assert_eq!(verdict.action(), winner(SEVEN, dest, source), "{kind:?} {levels}: {dest} {source}");
                let (Verdict::Act { reads, .. } | Verdict::NoRule { reads }) = verdict else { panic!("{verdict:?}") };
                assert!((1..=(VISITS + 1) * levels).contains(&reads));
            }
        }
    }
}

#[test]
fn rows_of_the_seven_rules() {
    let made = MadeRules::of(Kind::Variable, 1, SEVEN, WORDS + 3, ROWS + 2, NUMBERS + 4);
    let RuleRecord { dest, elements } = made.built.record;
    assert_eq!((made.built.outcome, elements), (Outcome::Accepted, 44));
    assert_eq!((dest.width, dest.levels, dest.elements, dest.floor, dest.strides[..2] == [4, 0]), (4, 1, 16, 0, true));
    assert_eq!(made.list, [0, 4, 16, 16, 0, 0, 2, 32, 4, 1, 0, 3, 36, 8, 2, 9, 9, 9, 9]);
    assert_eq!(made.hop[..16], [2, 3, 1, 1, 1, 1, 1, 1, 0, 0, 0, 0, 0, 0, 0, 0]);
    assert_eq!(made.hop[16..32], [0, 0, 0, 0, 0, 0, 0, 0, 7, 7, 7, 7, 1, 7, 2, 3]);
    assert_eq!(made.hop[32..], [0, 0, 4, 5, 6, 0, 0, 0, 0, 0, 0, 0, 9, 9]);
    assert_eq!(made.length[32..], [0, 0, 2, 2, 3, 0, 0, 0, 0, 0, 0, 0, 9, 9]);
    assert_eq!((&made.link[44..], &made.stride[44..]), (&[9, 9][..], &[9, 9][..]));
    assert!(made.scratch.iter().all(|x| *x == 0));
}

/// The first pair is the document's own: the longest destination with a match decides it, not the least cost.
#[test]
fn verdicts() {
    let made = seven();
    assert_eq!(made.classify(0b0001, 0b1110), Verdict::Act { action: 5, reads: 3 });
    assert_eq!(made.classify(0b0001, 0b0001), Verdict::Act { action: 6, reads: 2 });
    assert_eq!(made.classify(0b0001, 0b0111), Verdict::NoRule { reads: 4 });
    assert_eq!(made.classify(0b0010, 0b1110), Verdict::Act { action: 2, reads: 2 });
    assert_eq!(made.classify(0b0111, 0b1000), Verdict::Act { action: 7, reads: 2 });
    assert_eq!(made.classify(0b1000, 0b1110), Verdict::NoRule { reads: 1 });
    for (dest, source) in [(16, 0), (0, 16), (16, 16), (u32::MAX, 0)] {
        assert_eq!(made.classify(dest, source), Verdict::Refused { number: 8 });
    }
}

#[test]
fn refusals_of_a_build() {
    let built = |rules, levels, words, rows, numbers| {
        let made = MadeRules::of(Kind::Variable, levels, rules, words, rows, numbers);
        assert!(made.built.outcome == Outcome::Accepted || made.is_untouched());
        made.built
    };
    for width in [0, 33] {
        assert_eq!(built(Rules { width, ..SEVEN }, 0, WORDS, ROWS, NUMBERS), refused(1, 0));
    }
    for levels in [0, 33] {
        assert_eq!(built(SEVEN, levels, WORDS, ROWS, NUMBERS), refused(2, 0));
    }
    let of = |rules| built(rules, 1, WORDS, ROWS, NUMBERS);
    assert_eq!(of(Rules { dest_value: &SEVEN.dest_value[1..], ..SEVEN }), refused(3, 0));
    assert_eq!(of(Rules { dest_length: &SEVEN.dest_length[1..], ..SEVEN }), refused(3, 0));
    assert_eq!(of(Rules { source_value: &SEVEN.source_value[1..], ..SEVEN }), refused(3, 0));
    assert_eq!(of(Rules { source_length: &SEVEN.source_length[1..], ..SEVEN }), refused(3, 0));
    assert_eq!(of(Rules { action: &SEVEN.action[1..], ..SEVEN }), refused(3, 0));
    assert_eq!(of(Rules { action: &[7, 1, 2, 3, 4, 5, 0], ..SEVEN }), refused(4, 6));
    assert_eq!(of(Rules { dest_value: &[0, 0, 0, 0, 1, 0, 1], ..SEVEN }), refused(4, 4));
    assert_eq!(of(Rules { source_length: &[1, 4, 4, 5, 2, 2, 3], ..SEVEN }), refused(4, 3));
    assert_eq!(of(Rules { dest_length: &[1, 1, 1, 1, 1, 3, 4], ..SEVEN }), refused(5, 4));
    assert_eq!(of(Rules { source_value: &[8, 12, 12, 15, 8, 12, 0], ..SEVEN }), refused(5, 2));
    assert_eq!(built(SEVEN, 1, WORDS - 1, 0, 0), refused(6, 14));
    assert_eq!(built(SEVEN, 1, WORDS, ROWS - 1, 0), refused(7, 44));
    assert_eq!(built(SEVEN, 1, WORDS, ROWS, NUMBERS - 1), refused(7, 3));
    assert_eq!(of(SEVEN).outcome, Outcome::Accepted);
}

#[test]
fn what_refused_builds_leave() {
    for kind in KINDS {
        for (rows, numbers) in [(ROWS - 1, NUMBERS), (ROWS, NUMBERS - 1)] {
            let scarce = MadeRules::of(kind, 1, SEVEN, WORDS + 1, rows, numbers);
            assert!(scarce.scratch.iter().all(|x| *x == 0) && scarce.is_untouched());
        }
        let early = MadeRules::of(kind, 1, SEVEN, WORDS - 1, ROWS, NUMBERS);
        assert!(early.scratch.iter().all(|x| *x == 7) && early.is_untouched());
    }
}

/// The element list that is shortest counts.
#[test]
fn one_short_list() {
    for short in 0..4 {
        let room = |list: usize| ROWS - usize::from(list == short);
        let (mut hop, mut length, mut link, mut stride) =
            (vec![9; room(0)], vec![9; room(1)], vec![9; room(2)], vec![9; room(3)]);
        let rows = RowsMut { hop: &mut hop, length: &mut length, link: &mut link, stride: &mut stride };
        let built = build_rules(Kind::Fixed, 1, SEVEN, &mut [7; WORDS], rows, &mut [9; NUMBERS]);
        assert_eq!(built, refused(7, 44));
    }
}

/// Discards, the entry of length 0 in both fields, and no rules at all.
#[test]
fn discards_and_little() {
    let rules = Rules {
        width: 3,
        links: LINKS,
        dest_value: &[0, 0, 0],
        dest_length: &[0, 1, 1],
        source_value: &[0, 0b010, 0b011],
        source_length: &[0, 2, 3],
        action: &[4, DISCARD, 2],
    };
    let made = MadeRules::of(Kind::Fixed, 2, rules, 9 * SCRATCH_ROW, 16, 10);
    assert_eq!((made.built.outcome, made.built.record.dest.floor), (Outcome::Accepted, 1));
    assert_eq!((&made.list[..5], made.list[9]), (&[4, 0, 2, 0, 0][..], 1));
    assert_eq!(made.classify(0, 2), Verdict::Discard { reads: 3 });
    assert_eq!(made.classify(0, 2).action(), Some(DISCARD));
    assert_eq!(made.classify(0, 3), Verdict::Act { action: 2, reads: 3 });
    assert_eq!(made.classify(0, 4), Verdict::Act { action: 4, reads: 2 });
    assert_eq!(made.classify(4, 2), Verdict::Act { action: 4, reads: 1 });
    let none = Rules {
        width: 3,
        links: LINKS,
        dest_value: &[],
        dest_length: &[],
        source_value: &[],
        source_length: &[],
        action: &[],
    };
    let made = MadeRules::of(Kind::Variable, 3, none, 0, 0, 0);
    assert_eq!((made.built.outcome, made.built.record.elements), (Outcome::Accepted, 0));
    assert_eq!(
        (made.classify(7, 7), made.classify(8, 7)),
        (Verdict::NoRule { reads: 0 }, Verdict::Refused { number: 8 })
    );
}

/// Destinations of every length that begin one address; only the shortest has a source that matches.
#[test]
fn the_most_visits() {
    let address = 0xa5a5_a5a5u32;
    let cut = |length: u32| ((u64::from(address) >> (32 - length)) << (32 - length)) as u32;
    let mut nested: Vec<(u32, u8, u32)> =
        (0..=32).map(|length| (cut(length), length as u8, (length == 0) as u32)).collect();
    nested.sort();
    let (value, length): (Vec<u32>, Vec<u8>) = nested.iter().map(|rule| (rule.0, rule.1)).unzip();
    let source: Vec<u32> = nested.iter().map(|rule| rule.2).collect();
    let rules = Rules {
        width: 32,
        links: LINKS,
        dest_value: &value,
        dest_length: &length,
        source_value: &source,
        source_length: &[32; 33],
        action: &[9; 33],
    };
    // every trie has 32 nodes, one a level, and with 32 levels as many blocks of two
    for kind in KINDS {
        let mut made = MadeRules::of(kind, 32, rules, 34 * 32 * SCRATCH_ROW, 34 * 64, 33 * TRIE_ROW);
        assert_eq!((made.built.outcome, made.built.record.elements), (Outcome::Accepted, 34 * 64));
        assert_eq!(made.classify(address, 1), Verdict::Act { action: 9, reads: (VISITS + 1) * 32 });
        assert_eq!(made.classify(address, 2), Verdict::NoRule { reads: 32 + 33 * 31 });
        // the trie that is visited last leads back to the first: a 34th is called for
        let (last, first) = (nested.iter().position(|rule| rule.1 == 0), nested.iter().position(|rule| rule.1 == 32));
        made.list[last.unwrap() * TRIE_ROW + 4] = first.unwrap() as u32 + 1;
        assert_eq!(made.classify(address, 1), Verdict::Act { action: 9, reads: (VISITS + 1) * 32 });
        assert_eq!(made.classify(address, 2), Verdict::Refused { number: 9 });
    }
}

#[test]
fn the_most_rules() {
    let many = |n: u32, with: fn(Rules)| {
        let (value, source): (Vec<u32>, Vec<u32>) = (0..n).map(|i| (i, i % 2 * 1024)).unzip();
        let (long, short, action) = (vec![11; n as usize], vec![1; n as usize], (1..=n as u16).collect::<Vec<u16>>());
        with(Rules {
            width: 11,
            links: LINKS,
            dest_value: &value,
            dest_length: &long,
            source_value: &source,
            source_length: &short,
            action: &action,
        });
    };
    // 1,024 nodes for the destinations, and one for each of their sources
    many(RULES as u32, |rules| {
        let made = MadeRules::of(Kind::Fixed, 2, rules, 2048 * SCRATCH_ROW, 8192, RULES * TRIE_ROW);
        assert_eq!(made.built.outcome, Outcome::Accepted);
        for i in 0..RULES as u32 {
            assert_eq!(made.classify(i, i % 2 * 1024 + 5).action(), Some(1 + i as u16));
            assert!(matches!(made.classify(i, (i + 1) % 2 * 1024), Verdict::NoRule { .. }));
        }
        assert!(matches!(made.classify(1024, 0), Verdict::NoRule { .. }));
    });
    many(RULES as u32 + 1, |rules| {
        assert_eq!(MadeRules::of(Kind::Fixed, 2, rules, 0, 0, 0).built, refused(3, 0));
    });
}

/// What the seven rules leave, changed, and what two pairs then get: one that visits all three tries, and one that visits the first
/// only.
#[test]
fn damage() {
    let change = |change: fn(&mut MadeRules)| {
        let mut made = seven();
        change(&mut made);
        (made.classify(0b0001, 0b0111), made.classify(0b0111, 0b1000))
    };
    let none = |reads| Verdict::NoRule { reads };
    let (damaged, sound) = (Verdict::Refused { number: 9 }, Verdict::Act { action: 7, reads: 2 });
    assert_eq!(change(|_| ()), (none(4), sound));
    // the E of all tries above the shortest list, or below the destinations' own
    assert_eq!(change(|made| made.built.record.elements = 45), (damaged, damaged));
    assert_eq!(change(|made| made.length.truncate(43)), (damaged, damaged));
    assert_eq!(change(|made| made.built.record.dest.elements = 45), (damaged, damaged));
    // 01's rule in the destination trie
    assert_eq!(change(|made| made.built.record.dest.strides[0] = 0), (damaged, damaged));
    assert_eq!(change(|made| made.built.record.dest.strides[0] = 5), (damaged, damaged));
    assert_eq!(change(|made| made.link[1] = 4), (damaged, sound));
    // and in a source trie
    assert_eq!(change(|made| made.list[11] = 0), (damaged, sound));
    assert_eq!(change(|made| made.list[11] = 256 + 3), (damaged, sound));
    assert_eq!(change(|made| made.list[13] = 3), (damaged, sound));
    assert_eq!(change(|made| made.link[39] = 1), (damaged, sound));
    // its rows run past the E of all tries
    assert_eq!(change(|made| made.built.record.elements = 43), (damaged, sound));
    assert_eq!(change(|made| made.list[12] = 37), (damaged, sound));
    assert_eq!(change(|made| (made.list[12], made.list[13]) = (u32::MAX, u32::MAX)), (damaged, sound));
    // a link past the list
    assert_eq!(change(|made| made.list[14] = 4), (damaged, sound));
    assert_eq!(change(|made| made.list[14] = u32::MAX), (damaged, sound));
    assert_eq!(change(|made| made.list.truncate(14)), (damaged, sound));
    assert_eq!(change(|made| made.hop[1] = DISCARD), (damaged, sound));
    // a trie that leads to itself: a 34th is called for
    assert_eq!(change(|made| made.list[14] = 3), (damaged, sound));
    // floors and links are taken as found, of a floor the last 16 bits
    assert_eq!(change(|made| made.list[14] = 0), (none(2), sound));
    assert_eq!(change(|made| made.list[10] = 65_536 + 8), (Verdict::Act { action: 8, reads: 2 }, sound));
    assert_eq!(change(|made| made.list[5] = u32::MAX), (Verdict::Discard { reads: 3 }, sound));
    assert_eq!(change(|made| made.hop[1] = 0), (none(1), sound));
    let by = |number| (Verdict::Refused { number }, Verdict::Refused { number });
    assert_eq!(change(|made| made.built.record.dest.width = 0), by(1));
    assert_eq!(change(|made| made.built.record.dest.levels = 33), by(2));
    assert_eq!(change(|made| made.built.record = RuleRecord::default()), by(1));
}
