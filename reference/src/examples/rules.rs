//! Rules of two fields: the seven of source document 004's figure 3, every pair of addresses of small widths against a scan
//! over the rules, each trie against the ordinary build of its table, chains of nested destinations, each refusal and each
//! clause of refusal 9.

use super::{built as built_alone, number};
use crate::build::{Elements, SCRATCH_ROW};
use crate::choices::{choose, Kind, LEVELS};
use crate::lookup::{self, lookup};
use crate::random::{cut, Random};
use crate::rules::{build_rules, classify, visit, Damage, Rule, RuleRecord, Rules, Verdict, RULES, TRIE_ROW, VISITS};
use crate::table::{bits, Refusal, DISCARD};
use crate::trie::Trie;

const KINDS: [Kind; 2] = [Kind::Fixed, Kind::Variable];

/// Rules from bit strings.
fn rules(width: u32, rules: &[(&str, &str, u16)]) -> Rules {
    let value = |bits: &str| number(&format!("0{bits}")) << (width - bits.len() as u32);
    let rule = |(d, s, action): &(&str, &str, u16)| (value(d), d.len() as u8, value(s), s.len() as u8, *action);
    Rules::of(width, &rules.iter().map(rule).collect::<Vec<Rule>>())
}

/// Figure 3 of source document 004, in the order that 02 asks for; an action is the number of its filter.
fn figure(width: u32) -> Rules {
    rules(
        width,
        &[
            ("0", "1", 7),
            ("0", "1100", 1),
            ("0", "1110", 2),
            ("0", "1111", 3),
            ("000", "10", 4),
            ("000", "11", 5),
            ("0001", "000", 6),
        ],
    )
}

/// What a build left.
#[derive(Clone)]
struct Left {
    record: RuleRecord,
    rows: Elements,
    list: Vec<u32>,
}

impl Left {
    fn classify(&self, dest: u32, source: u32) -> Result<Verdict, Refusal> {
        classify(&self.record, &self.rows, &self.list, dest, source)
    }

    fn damage(&self, dest: u32, source: u32) -> Result<(), Damage> {
        visit(&self.record, &self.rows, &self.list, dest, source).map(|_| ())
    }
}

fn room(n: usize) -> Elements {
    Elements { hop: vec![9; n], length: vec![5; n], link: vec![9; n], stride: vec![9; n] }
}

/// A build with so many words of scratch, rows of each element list and numbers of the list of tries.
fn tried(
    kind: Kind,
    levels: u32,
    rules: &Rules,
    words: usize,
    rows: usize,
    numbers: usize,
) -> (Result<(), Refusal>, Left) {
    let (mut scratch, mut rows, mut list) = (vec![7; words], room(rows), vec![9; numbers]);
    let before = (rows.clone(), list.clone());
    let (outcome, record) = build_rules(kind, levels, rules, &mut scratch, &mut rows, &mut list);
    let zeroed = outcome.is_ok() || outcome.is_err_and(|refusal| refusal.number == 7);
    assert!(scratch.iter().all(|word| *word == if zeroed { 0 } else { 7 }));
    assert!(outcome.is_ok() || (record == RuleRecord::default() && (&rows, &list) == (&before.0, &before.1)));
    (outcome, Left { record, rows, list })
}

fn nodes(rules: &Rules) -> usize {
    rules.tables().iter().map(|table| Trie::of(table).size()).sum()
}

/// Room just enough for the rules.
fn built(kind: Kind, levels: u32, rules: &Rules) -> Left {
    let tables = rules.tables();
    let rows: u64 = tables.iter().map(|table| choose(kind, &Trie::of(table), levels).cost).sum();
    let numbers = (tables.len() - 1) * TRIE_ROW;
    let (outcome, left) = tried(kind, levels, rules, nodes(rules) * SCRATCH_ROW, rows as usize, numbers);
    assert_eq!(outcome, Ok(()));
    left
}

fn refused<T>(number: u32, detail: u64) -> Result<T, Refusal> {
    Err(Refusal { number, detail })
}

#[test]
fn seven_rules() {
    let seven = figure(5);
    assert_eq!(seven.check(), Ok(()));
    // The document's own pair: by its least cost F2, by 02 the longest destination with a match.
    let answers = [
        ("00010", "11101", 5),
        ("00010", "00011", 6),
        ("00010", "00100", 0),
        ("00011", "10000", 4),
        ("00000", "00000", 0),
        ("00100", "11101", 2),
        ("01111", "11001", 1),
        ("01111", "10000", 7),
        ("10000", "11001", 0),
    ];
    for (kind, levels) in KINDS.into_iter().flat_map(|kind| (1..=5).map(move |levels| (kind, levels))) {
        let left = built(kind, levels, &seven);
        for (dest, source, action) in answers {
            assert_eq!(seven.decide(number(dest), number(source)), action);
            assert_eq!(left.classify(number(dest), number(source)).unwrap().action(), action);
        }
    }
}

/// Figure 3 at W = 4 with one level: each trie is one block.
#[test]
fn seven_rules_in_rows() {
    let left = built(Kind::Variable, 1, &figure(4));
    assert_eq!((left.record.dest.elements, left.record.elements, left.record.dest.strides[0]), (16, 44, 4));
    assert_eq!(left.list, [0, 4, 16, 16, 0, 0, 2, 32, 4, 1, 0, 3, 36, 8, 2]);
    assert_eq!(left.rows.hop[..16], [2, 3, 1, 1, 1, 1, 1, 1, 0, 0, 0, 0, 0, 0, 0, 0]);
    assert_eq!(left.rows.hop[16..32], [0, 0, 0, 0, 0, 0, 0, 0, 7, 7, 7, 7, 1, 7, 2, 3]);
    assert_eq!(left.rows.hop[32..], [0, 0, 4, 5, 6, 0, 0, 0, 0, 0, 0, 0]);
    assert_eq!(left.classify(1, 14), Ok(Verdict::Act { action: 5, reads: 3 }));
    assert_eq!(left.classify(1, 7), Ok(Verdict::NoRule { reads: 4 }));
    assert_eq!(left.classify(8, 14), Ok(Verdict::NoRule { reads: 1 }));
}

/// Which of the rule list's tries are visited, by scanning its destinations, and the blocks that ordinary lookups in ordinary
/// builds read.
fn expected_reads(kind: Kind, levels: u32, rules: &Rules, dest: u32, source: u32) -> (Vec<usize>, u32) {
    let tables = rules.tables();
    let whole = bits(rules.width, dest, rules.width);
    let dests = tables[0].entries();
    let mut begin: Vec<usize> = (0..dests.len()).filter(|g| whole.starts_with(&dests[*g])).collect();
    begin.sort_by_key(|g| std::cmp::Reverse(dests[*g].len()));
    let matching = begin.iter().position(|g| tables[g + 1].longest(source).is_some());
    begin.truncate(matching.map_or(begin.len(), |last| last + 1));
    let reads = |n: usize, address| {
        let (_, record, rows) = built_alone(kind, levels, &tables[n], 256, 256);
        lookup(&record, &rows, address).unwrap().reads()
    };
    let all = reads(0, dest) + begin.iter().map(|g| reads(g + 1, source)).sum::<u32>();
    (begin, all)
}

/// Every pair of addresses gets what the scan finds; the tries are visited and the blocks read that 02 says.
fn every_pair(kind: Kind, levels: u32, made: &Rules, left: &Left) {
    for (dest, source) in
        (0..1u32 << made.width).flat_map(|dest| (0..1 << made.width).map(move |source| (dest, source)))
    {
        let verdict = left.classify(dest, source).unwrap();
        assert_eq!(verdict, Verdict::of(made.decide(dest, source), verdict.reads()));
        assert!(verdict.reads() <= 34 * levels);
        let visits = visit(&left.record, &left.rows, &left.list, dest, source).unwrap();
        assert_eq!((visits.tries, verdict.reads()), expected_reads(kind, levels, made, dest, source));
    }
}

/// Each trie's rows, floor, root stride and E are those of the ordinary build of its table, one behind the other.
fn each_trie(kind: Kind, levels: u32, made: &Rules, left: &Left) {
    let mut place = 0;
    for (n, table) in made.tables().iter().enumerate() {
        let (outcome, record, rows) = built_alone(kind, levels, table, 256, 256);
        assert_eq!(outcome, Ok(()));
        let e = record.elements as usize;
        assert_eq!(left.rows.hop[place..place + e], rows.hop[..e]);
        assert_eq!(left.rows.length[place..place + e], rows.length[..e]);
        assert_eq!(left.rows.link[place..place + e], rows.link[..e]);
        assert_eq!(left.rows.stride[place..place + e], rows.stride[..e]);
        if n == 0 {
            assert_eq!(left.record.dest, record);
        } else {
            let row = [record.floor as u32, record.strides[0] as u32, place as u32, e as u32];
            assert_eq!(left.list[(n - 1) * TRIE_ROW..n * TRIE_ROW - 1], row);
        }
        place += e;
    }
    assert_eq!((left.record.elements as usize, left.rows.shortest()), (place, place));
}

#[test]
fn every_pair_of_small_widths() {
    let mut random = Random::new(7);
    for turn in 0..240 {
        let width = 1 + turn % 4;
        let n = random.within(0, 14) as usize;
        let made = random.rules(width, n);
        assert_eq!(made.check(), Ok(()));
        for kind in KINDS {
            let levels = random.within(1, width as u64 + 1) as u32;
            let left = built(kind, levels, &made);
            each_trie(kind, levels, &made, &left);
            every_pair(kind, levels, &made, &left);
        }
    }
}

/// Both kinds and all level limits classify alike, wider addresses too.
#[test]
fn wider_rules() {
    let mut random = Random::new(8);
    for _ in 0..150 {
        let width = random.within(5, 32) as u32;
        let made = random.rules(width, 20);
        for kind in KINDS {
            let levels = random.within(width as u64 / 5 + 1, LEVELS as u64) as u32;
            let (outcome, left) = tried(kind, levels, &made, nodes(&made) * SCRATCH_ROW, 1 << 16, 5 * RULES);
            assert_eq!(outcome, Ok(()));
            for _ in 0..40 {
                let i = random.within(0, made.count() as u64 - 1) as usize;
                let dest = random.relative(width, (made.dest_value[i], made.dest_length[i])).0;
                let source = random.relative(width, (made.source_value[i], made.source_length[i])).0;
                let verdict = left.classify(dest, source).unwrap();
                assert_eq!(verdict.action(), made.decide(dest, source));
            }
        }
    }
}

/// Destinations of all lengths of one address; the longest have sources that do not match.
fn nested(width: u32) -> Rules {
    let address = 0xa5a5_a5a5u64 >> (32 - width);
    let rule = |length: u32| (cut(width, address, length), length as u8, (length == 0) as u32, width as u8, 9);
    let mut rules: Vec<Rule> = (0..=width).map(rule).collect();
    rules.sort();
    Rules::of(width, &rules)
}

#[test]
fn thirty_three_tries() {
    let made = nested(32);
    for kind in KINDS {
        let left = built(kind, 32, &made);
        let visits = visit(&left.record, &left.rows, &left.list, 0xa5a5_a5a5, 1).unwrap();
        assert_eq!((visits.tries.len(), visits.action, visits.rows.len()), (VISITS, 9, 34 * 32));
        assert_eq!(left.classify(0xa5a5_a5a5, 2), Ok(Verdict::NoRule { reads: 32 + 33 * 31 }));
        assert_eq!(left.classify(0xa5a5_a5a4, 0).unwrap().reads(), 32 + 32);
        // The trie that is visited last leads back to the first: a 34th is called for.
        let mut round = left.clone();
        round.list[*visits.tries.last().unwrap() * TRIE_ROW + 4] = visits.tries[0] as u32 + 1;
        assert_eq!(round.damage(0xa5a5_a5a5, 1), Ok(()));
        assert_eq!(round.damage(0xa5a5_a5a5, 2), Err(Damage::TooManyTries));
    }
}

#[test]
fn discards_and_little() {
    let made = rules(3, &[("", "", 4), ("0", "01", DISCARD), ("0", "011", 2)]);
    let left = built(Kind::Fixed, 2, &made);
    assert_eq!(left.list[..5], [4, 0, 2, 0, 0]);
    assert_eq!((left.record.dest.floor, left.list[9]), (1, 1));
    assert_eq!(left.classify(0, 2), Ok(Verdict::Discard { reads: 3 }));
    assert_eq!(left.classify(0, 3), Ok(Verdict::Act { action: 2, reads: 3 }));
    assert_eq!(left.classify(0, 4), Ok(Verdict::Act { action: 4, reads: 2 }));
    assert_eq!(left.classify(4, 2), Ok(Verdict::Act { action: 4, reads: 1 }));
    let (outcome, none) = tried(Kind::Variable, 3, &rules(3, &[]), 0, 0, 0);
    assert_eq!((outcome, none.record.elements, none.record.dest.width), (Ok(()), 0, 3));
    assert_eq!(none.classify(7, 7), Ok(Verdict::NoRule { reads: 0 }));
    let (outcome, all) = tried(Kind::Variable, 3, &rules(3, &[("", "", DISCARD)]), 0, 0, 5);
    assert_eq!((outcome, &all.list[..]), (Ok(()), &[DISCARD as u32, 0, 0, 0, 0][..]));
    assert_eq!(all.classify(7, 0), Ok(Verdict::Discard { reads: 0 }));
}

#[test]
fn refusals_in_order() {
    let seven = figure(4);
    let outcome =
        |rules: &Rules, levels, words, rows, numbers| tried(Kind::Variable, levels, rules, words, rows, numbers).0;
    assert_eq!(nodes(&seven), 4 + 5 + 2 + 3);
    assert_eq!(outcome(&seven, 1, 14 * 72, 44, 15), Ok(()));
    assert_eq!(outcome(&seven, 1, 14 * 72, 43, 15), refused(7, 44));
    assert_eq!(outcome(&seven, 1, 14 * 72, 44, 14), refused(7, 3));
    assert_eq!(outcome(&seven, 1, 14 * 72, 43, 14), refused(7, 44));
    assert_eq!(outcome(&seven, 1, 14 * 72 - 1, 0, 0), refused(6, 14));
    assert_eq!(outcome(&Rules { width: 0, ..seven.clone() }, 33, 0, 0, 0), refused(1, 0));
    assert_eq!(outcome(&Rules { width: 33, ..seven.clone() }, 0, 0, 0, 0), refused(1, 0));
    assert_eq!(outcome(&seven, 0, 0, 0, 0), refused(2, 0));
    assert_eq!(outcome(&seven, 33, 0, 0, 0), refused(2, 0));
    let changed = |change: &dyn Fn(&mut Rules)| {
        let mut other = seven.clone();
        change(&mut other);
        outcome(&other, 1, 0, 0, 0)
    };
    assert_eq!(changed(&|r| r.dest_value.truncate(6)), refused(3, 0));
    assert_eq!(changed(&|r| r.dest_length.truncate(6)), refused(3, 0));
    assert_eq!(changed(&|r| r.source_value.truncate(6)), refused(3, 0));
    assert_eq!(changed(&|r| r.source_length.truncate(6)), refused(3, 0));
    assert_eq!(changed(&|r| r.action.truncate(6)), refused(3, 0));
    assert_eq!(changed(&|r| r.action[6] = 0), refused(4, 6));
    assert_eq!(changed(&|r| r.source_length[3] = 5), refused(4, 3));
    assert_eq!(changed(&|r| r.source_value[3] = 16), refused(4, 3));
    assert_eq!(changed(&|r| r.dest_value[4] = 1), refused(4, 4));
    assert_eq!(changed(&|r| r.source_value[2] = 12), refused(5, 2));
    assert_eq!(changed(&|r| r.dest_length[4] = 1), refused(5, 4));
    assert_eq!(changed(&|r| (r.source_value[2], r.action[3]) = (12, 0)), refused(5, 2));
    assert_eq!(changed(&|r| (r.source_value[2], r.action[2]) = (12, 0)), refused(4, 2));
    // Room is counted over all tries, and past 16,777,216 no room is enough.
    let wide = rules(32, &[("0", &"0".repeat(24), 1)]);
    assert_eq!(outcome(&wide, 1, 25 * 72, 0, 5), refused(7, (1 << 24) + 2));
}

#[test]
fn most_rules() {
    let many = |n: u32| Rules::of(11, &(0..n).map(|i| (i, 11, i % 2 * 1024, 1, 1 + i as u16)).collect::<Vec<Rule>>());
    let left = built(Kind::Fixed, 2, &many(1024));
    for i in [0, 1, 512, 1022, 1023] {
        assert_eq!(left.classify(i, i % 2 * 1024 + 5).unwrap().action(), 1 + i as u16);
        assert_eq!(left.classify(i, (i + 1) % 2 * 1024).unwrap().action(), 0);
    }
    assert_eq!(tried(Kind::Fixed, 2, &many(1025), 0, 0, 0).0, refused(3, 0));
}

/// Of the arrays only the rows read and the rows of the tries visited matter, and of a floor the last 16 bits.
#[test]
fn nothing_off_the_paths_counts() {
    let mut random = Random::new(9);
    for _ in 0..400 {
        let width = random.within(1, 8) as u32;
        let made = random.rules(width, 12);
        let left = built(Kind::Variable, random.within(1, 4) as u32, &made);
        let any = |random: &mut Random| random.within(0, (1 << width) - 1) as u32;
        let (dest, source) = (any(&mut random), any(&mut random));
        let visits = visit(&left.record, &left.rows, &left.list, dest, source).unwrap();
        let mut other = left.clone();
        for i in (0..left.rows.hop.len()).filter(|i| !visits.rows.contains(i)) {
            (other.rows.hop[i], other.rows.length[i]) = (random.next() as u16, random.next() as u8);
            (other.rows.link[i], other.rows.stride[i]) = (random.next() as u32, random.next() as u8);
        }
        for trie in 0..left.list.len() / TRIE_ROW {
            let row = &mut other.list[trie * TRIE_ROW..(trie + 1) * TRIE_ROW];
            match visits.tries.contains(&trie) {
                true => row[0] += 65536 * random.within(0, 65535) as u32,
                false => row.iter_mut().for_each(|number| *number = random.next() as u32),
            }
        }
        assert_eq!(left.classify(dest, source), other.classify(dest, source));
    }
}

/// The same arrays with one row more in each element list.
fn longer(left: &mut Left) -> &mut Left {
    left.rows.hop.push(0);
    left.rows.length.push(0);
    left.rows.link.push(0);
    left.rows.stride.push(0);
    left
}

/// Rows past the E of all tries and numbers past the rows of the source tries stay, a part row of scratch is zeroed.
#[test]
fn later_rows_are_kept() {
    for kind in KINDS {
        let (exact, (outcome, left)) = (built(kind, 1, &figure(4)), tried(kind, 1, &figure(4), 14 * 72 + 71, 50, 24));
        assert_eq!((outcome, left.record), (Ok(()), exact.record));
        assert_eq!((&left.rows.hop[..44], &left.list[..15]), (&exact.rows.hop[..], &exact.list[..]));
        assert_eq!((&left.rows.hop[44..], &left.rows.length[44..]), (&[9; 6][..], &[5; 6][..]));
        assert_eq!((&left.rows.link[44..], &left.rows.stride[44..]), (&[9; 6][..], &[9; 6][..]));
        assert_eq!(left.list[15..], [9; 9]);
    }
}

/// Things to be changed in what the seven rules leave with one level at W = 4, and what a pair then meets that visits all three
/// tries: destination 0001, source 0111.
#[test]
fn damaged_arrays() {
    let good = built(Kind::Variable, 1, &figure(4));
    let damage = |change: &dyn Fn(&mut Left)| {
        let mut left = good.clone();
        change(&mut left);
        left.damage(1, 7)
    };
    let inside = |damage| Err(Damage::Source(damage));
    let outside = |damage| Err(Damage::Destination(damage));
    assert_eq!(damage(&|_| ()), Ok(()));
    assert_eq!(damage(&|left| left.record.elements = 45), Err(Damage::ListsTooShort));
    assert_eq!(damage(&|left| left.rows.length.truncate(43)), Err(Damage::ListsTooShort));
    assert_eq!(damage(&|left| left.record.dest.elements = 45), Err(Damage::DestinationPastEnd));
    assert_eq!(damage(&|left| left.record.dest.elements = 44), Ok(()));
    // The lists are longer than all tries; the destinations' rows run past these.
    assert_eq!(damage(&|left| longer(left).record.dest.elements = 45), Err(Damage::DestinationPastEnd));
    assert_eq!(damage(&|left| longer(left).record.dest.elements = 44), Ok(()));
    assert_eq!(damage(&|left| longer(left).list[13] = 9), Err(Damage::SourcePastEnd));
    assert_eq!(damage(&|left| left.record.dest.strides[0] = 0), outside(lookup::Damage::RootStrideZero));
    assert_eq!(damage(&|left| left.record.dest.strides[0] = 5), outside(lookup::Damage::StrideTooLong));
    assert_eq!(damage(&|left| left.record.dest.elements = 1), outside(lookup::Damage::RowPastEnd));
    assert_eq!(damage(&|left| left.rows.link[1] = 4), outside(lookup::Damage::BlockAfterLast));
    assert_eq!(damage(&|left| left.record.elements = 43), Err(Damage::SourcePastEnd));
    assert_eq!(damage(&|left| left.list[12] = 37), Err(Damage::SourcePastEnd));
    assert_eq!(damage(&|left| left.list[12..14].copy_from_slice(&[45, 0])), Err(Damage::SourcePastEnd));
    assert_eq!(damage(&|left| left.list[11..14].copy_from_slice(&[0, 44, 0])), Ok(()));
    assert_eq!(damage(&|left| left.list[12..14].copy_from_slice(&[u32::MAX, u32::MAX])), Err(Damage::SourcePastEnd));
    assert_eq!(damage(&|left| left.list[11] = 0), inside(lookup::Damage::RootStrideZero));
    for root in [5, 255, 256, 259, 65539, u32::MAX] {
        assert_eq!(damage(&|left| left.list[11] = root), inside(lookup::Damage::StrideTooLong));
    }
    assert_eq!(damage(&|left| left.list[13] = 3), inside(lookup::Damage::RowPastEnd));
    assert_eq!(damage(&|left| left.rows.link[39] = 1), inside(lookup::Damage::BlockAfterLast));
    assert_eq!(
        damage(&|left| (left.record.dest.levels, left.rows.link[39]) = (2, 1)),
        inside(lookup::Damage::StrideZero)
    );
    assert_eq!(damage(&|left| left.list[14] = 3), Err(Damage::TooManyTries));
    assert_eq!(damage(&|left| left.list[14] = 4), Err(Damage::LinkPastList));
    assert_eq!(damage(&|left| left.rows.hop[1] = 65535), Err(Damage::LinkPastList));
    assert_eq!(damage(&|left| left.list.truncate(14)), Err(Damage::LinkPastList));
    assert_eq!(damage(&|left| left.list[14] = u32::MAX), Err(Damage::LinkPastList));
    let answer = |change: &dyn Fn(&mut Left)| {
        let mut left = good.clone();
        change(&mut left);
        left.classify(1, 7)
    };
    assert_eq!(answer(&|left| left.list[14] = 0), Ok(Verdict::NoRule { reads: 2 }));
    assert_eq!(answer(&|left| left.list[10] = 65536 + 8), Ok(Verdict::Act { action: 8, reads: 2 }));
    assert_eq!(answer(&|left| left.list[10] = 65536), Ok(Verdict::NoRule { reads: 4 }));
    assert_eq!(answer(&|left| left.list[5] = u32::MAX), Ok(Verdict::Discard { reads: 3 }));
    assert_eq!(answer(&|left| left.rows.hop[1] = 0), Ok(Verdict::NoRule { reads: 1 }));
    assert_eq!(answer(&|left| left.record.dest.width = 33), refused(1, 0));
    assert_eq!(answer(&|left| left.record.dest.levels = 33), refused(2, 0));
    for (dest, source) in [(16, 0), (0, 16), (16, 16), (u32::MAX, 0)] {
        assert_eq!(good.classify(dest, source), refused(8, 0));
    }
}
