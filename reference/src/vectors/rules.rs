//! The cases of rules of two fields (02, [6]): builds and classifications. A line of the input is a case, and its first word
//! says which; what stands between two numbers does not count.
//!
//! - `rules width W links G lists A B C D E rules N: d/l,s/m>a ..` sets the rules of the builds below it: the width, the number of
//!   links, the lengths of the five lists (destination values, their lengths, source values, their lengths, actions), how many rules
//!   follow, and of each its five numbers in that order; past a list's end 0 is written. Its answer is `rules`.
//! - `fixed levels K scratch S lists H L N T list X`, or `variable ..`, builds: the level limit, the length of scratch (filled
//!   with sevens), of the element lists hop, length, link and stride (the lengths filled with fives, the others with nines), and of
//!   the list of tries, in numbers (filled with nines). The answer is the outcome; the destination's record: `width`, `levels`,
//!   `elements`, `floor`, `strides` and its 32; `all`, the E of all tries; scratch's `zeros` and `sevens`; `kept`, how many
//!   marks each element list has from row E of all tries on, in the same order; and `nines`, how many there are in the whole
//!   list of tries.
//! - `print` prints `rows`, the element rows 0 to E - 1 of all tries as hop/length/link/stride, as far as the shortest list
//!   goes, then `list` and every number of the list of tries.
//! - `look D S` asks for a destination and a source in the last record and lists. The answer is `act`, the action, `reads` and their
//!   number; or `discard reads` and their number; or `none reads` and their number; or `refused` and the refusal.
//! - `sweep D S` asks for all destinations below D, and with each for all sources below S, each answer as action/reads (d for
//!   the action of a discard, 0/reads for no rule), or r with the refusal, after `sweep`.
//! - `record width W levels K elements E floor F stride R others O all A lists H L N T X rows Y: h/l/k/s .. list Z: n ..` sets a
//!   record and lists of its own: of its strides all but the first are O; A is the E of all tries; the lengths of the four
//!   element lists and of the list of tries; then rows for the element lists and numbers for the list of tries, some of
//!   which may be past their ends. Its answer is `record`.
//!
//! A line with another word, or with a list longer than the program's room or than what the line gives for it, is answered `bad
//! line` and changes nothing. The room is 65,600 rules, 600,000 words of scratch, 20,000 rows of each element list and 8,740 numbers
//! of the list of tries. Before the first line there are no rules, a record of zeros and empty lists.

mod harmed;
mod linked;
mod made;
mod refused;

use super::choosers::{name, KINDS, SCRATCH};
use super::{links, marks, outcome, Vectors, PLACES};
use crate::build::{Elements, Record, SCRATCH_ROW};
use crate::choices::{choose, Kind};
use crate::lookup::{self, walk};
use crate::random::Random;
use crate::rules::{
    build_rules, classify, visit, visit_calling, Damage, Rule, RuleRecord, Rules, Verdict, TRIE_ROW, VISITS,
};
use crate::table::{Refusal, LINKS};
use crate::trie::Trie;

/// The program's element lists have no more places.
const ROOM: usize = 20_000;
/// Its list of tries has no more: as many as a list of supernode rows in `bitmap_cases`, which is more than the 5,120 numbers of
/// 1,024 source tries.
const LIST: usize = 8740;

const WANTED: &[&str] = &[
    "fixed accepted",
    "fixed refused 1",
    "fixed refused 2",
    "fixed refused 3",
    "fixed refused 4",
    "fixed refused 5",
    "fixed refused 6",
    "fixed refused 7",
    "variable accepted",
    "variable refused 1",
    "variable refused 2",
    "variable refused 3",
    "variable refused 4",
    "variable refused 5",
    "variable refused 6",
    "variable refused 7",
    "fixed refused for elements",
    "fixed refused for the list of tries",
    "fixed refused above 16777216",
    "variable refused for elements",
    "variable refused for the list of tries",
    "variable refused above 16777216",
    "list 0 alone of another length",
    "list 1 alone of another length",
    "list 2 alone of another length",
    "list 3 alone of another length",
    "list 4 alone of another length",
    "more than 1024 rules",
    "classify act",
    "classify discard",
    "classify no rule",
    "classify refused 1",
    "classify refused 2",
    "classify refused 8",
    "classify refused 9",
    "destination alone too large",
    "source alone too large",
    "damage ListsTooShort",
    "damage DestinationPastEnd",
    "damage Destination(RootStrideZero)",
    "damage Destination(StrideZero)",
    "damage Destination(StrideTooLong)",
    "damage Destination(RowPastEnd)",
    "damage Destination(BlockAfterLast)",
    "damage LinkPastList",
    "damage SourcePastEnd",
    "damage Source(RootStrideZero)",
    "damage Source(StrideZero)",
    "damage Source(StrideTooLong)",
    "damage Source(RowPastEnd)",
    "damage Source(BlockAfterLast)",
    "damage TooManyTries",
    "no trie visited",
    "1 trie visited",
    "2 tries visited",
    "3 tries or more visited",
    "33 tries visited",
    "33 tries visited without a match",
    "discard with tries left",
    "action of a floor",
    "1088 reads",
    "floor above 65535 taken by its last 16 bits",
    "root stride above 255",
    "trie of E 0 past the end",
    "trie of E 0 at the end",
    "number 65535 of a destination",
    "number 1024 of a destination",
    "next trie backwards or itself",
    "damaged row off the paths",
    "damaged row of the list off the path",
    "bad line",
];

/// What the last build or `record` line left.
#[derive(Clone)]
struct Left {
    record: RuleRecord,
    rows: Elements,
    list: Vec<u32>,
}

/// Lengths of scratch, of the four element lists and of the list of tries.
#[derive(Clone, Copy)]
struct Lent {
    words: usize,
    rows: [usize; 4],
    list: usize,
}

fn rules_line(rules: &Rules) -> String {
    let lists = rules.lengths();
    let n = lists.into_iter().max().unwrap_or(0);
    let listed: String = lists.iter().map(|list| format!(" {list}")).collect();
    let mut line = format!("rules width {} links {} lists{listed} rules {n}:", rules.width, rules.links);
    for i in 0..n {
        let value = |list: &[u32]| list.get(i).copied().unwrap_or(0);
        let length = |list: &[u8]| list.get(i).copied().unwrap_or(0);
        let (dest, source) = (value(&rules.dest_value), value(&rules.source_value));
        let (dests, sources) = (length(&rules.dest_length), length(&rules.source_length));
        line += &format!(" {dest}/{dests},{source}/{sources}>{}", rules.action.get(i).unwrap_or(&0));
    }
    line
}

fn rules(vectors: &mut Vectors, rules: &Rules) {
    assert!(rules.lengths().iter().all(|list| *list <= PLACES));
    vectors.case(rules_line(rules), "rules".to_string());
}

/// What good rules need: words of scratch, rows and numbers of the list of tries.
fn needed(kind: Kind, levels: u32, rules: &Rules) -> Lent {
    let tables = rules.tables();
    let tries: Vec<Trie> = tables.iter().map(Trie::of).collect();
    let nodes: usize = tries.iter().map(Trie::size).sum();
    let cost: u64 = tries.iter().map(|trie| choose(kind, trie, levels).cost).sum();
    Lent { words: nodes * SCRATCH_ROW, rows: [cost as usize; 4], list: (tables.len() - 1) * TRIE_ROW }
}

/// The same, within the program's room.
fn roomy(kind: Kind, levels: u32, rules: &Rules) -> Lent {
    let Lent { words, rows, list } = needed(kind, levels, rules);
    Lent { words: words.min(SCRATCH), rows: rows.map(|list| list.min(ROOM)), list }
}

/// Counts why a build was refused.
fn count_build(
    vectors: &mut Vectors,
    (kind, levels): (Kind, u32),
    rules: &Rules,
    answer: Result<(), Refusal>,
    rows: &Elements,
) {
    let name = name(kind);
    vectors.outcome(name, &answer);
    links::count(vectors, name, (&rules.action, rules.links), answer, || rules.with_links(LINKS).check());
    match answer {
        Err(Refusal { number: 3, .. }) => {
            let lists = rules.lengths();
            let usual = lists.iter().copied().max_by_key(|n| lists.iter().filter(|m| *m == n).count());
            let others: Vec<usize> = (0..5).filter(|i| Some(lists[*i]) != usual).collect();
            match others[..] {
                [] => vectors.hit("more than 1024 rules"),
                [one] => vectors.hit(&format!("list {one} alone of another length")),
                _ => (),
            }
        }
        Err(Refusal { number: 7, detail }) => {
            let is_list = needed(kind, levels, rules).rows[0] <= rows.shortest();
            vectors.hit(&format!("{name} refused for {}", if is_list { "the list of tries" } else { "elements" }));
            if detail > 16_777_216 {
                vectors.hit(&format!("{name} refused above 16777216"));
            }
        }
        _ => (),
    }
}

fn built(vectors: &mut Vectors, rules: &Rules, kind: Kind, levels: u32, lent: Lent) -> Left {
    let Lent { words, rows: [hop, length, link, stride], list: numbers } = lent;
    assert!(words <= SCRATCH && lent.rows.iter().all(|list| *list <= ROOM) && numbers <= LIST);
    let (mut scratch, mut list) = (vec![7; words], vec![9; numbers]);
    let mut rows =
        Elements { hop: vec![9; hop], length: vec![5; length], link: vec![9; link], stride: vec![9; stride] };
    let (answer, record) = build_rules(kind, levels, rules, &mut scratch, &mut rows, &mut list);
    count_build(vectors, (kind, levels), rules, answer, &rows);
    let zeros = scratch.iter().filter(|x| **x == 0).count();
    let RuleRecord { dest, elements: all } = record;
    let strides: String = dest.strides.iter().map(|s| format!(" {s}")).collect();
    let given = fields(&dest);
    let (sevens, kept) = (words - zeros, kept(&rows, all));
    vectors.case(
        format!("{} levels {levels} scratch {words} lists {hop} {length} {link} {stride} list {numbers}", name(kind)),
        format!(
            "{} {given} strides{strides} all {all} zeros {zeros} sevens {sevens} {kept} nines {}",
            outcome(answer),
            marks(&list, 0, 9)
        ),
    );
    Left { record, rows, list }
}

/// The fields of the destinations' record but its strides, as a build prints them and a `record` line gives them.
fn fields(dest: &Record) -> String {
    format!("width {} levels {} elements {} floor {}", dest.width, dest.levels, dest.elements, dest.floor)
}

/// The marks that stand in the element lists past the rows of all tries.
fn kept(rows: &Elements, all: u32) -> String {
    let (hops, lengths) = (marks(&rows.hop, all, 9), marks(&rows.length, all, 5));
    format!("kept {hops} {lengths} {} {}", marks(&rows.link, all, 9), marks(&rows.stride, all, 9))
}

fn row(rows: &Elements, i: usize) -> String {
    let byte = |list: &[u8]| list.get(i).copied().unwrap_or(0);
    let (hop, link) = (rows.hop.get(i).unwrap_or(&0), rows.link.get(i).unwrap_or(&0));
    format!(" {hop}/{}/{link}/{}", byte(&rows.length), byte(&rows.stride))
}

fn print(vectors: &mut Vectors, left: &Left) {
    let rows = (left.record.elements as usize).min(left.rows.shortest());
    let rows: String = (0..rows).map(|i| row(&left.rows, i)).collect();
    let list: String = left.list.iter().map(|number| format!(" {number}")).collect();
    vectors.case("print".to_string(), format!("rows{rows} list{list}"));
}

fn answer(left: &Left, dest: u32, source: u32) -> Result<Verdict, Refusal> {
    classify(&left.record, &left.rows, &left.list, dest, source)
}

/// Counts what an accepted classification met on its way.
fn count_visits(vectors: &mut Vectors, left: &Left, dest: u32, source: u32, verdict: Verdict) {
    let visits = visit(&left.record, &left.rows, &left.list, dest, source).expect("accepted");
    let field = |trie: usize, place: usize| left.list[trie * TRIE_ROW + place];
    match visits.tries.len() {
        0 => vectors.hit("no trie visited"),
        1 => vectors.hit("1 trie visited"),
        2 => vectors.hit("2 tries visited"),
        n if n < VISITS => vectors.hit("3 tries or more visited"),
        _ if visits.action == 0 => vectors.hit("33 tries visited without a match"),
        _ => vectors.hit("33 tries visited"),
    }
    if let Some(&last) = visits.tries.last() {
        if matches!(verdict, Verdict::Discard { .. }) && field(last, 4) > 0 {
            vectors.hit("discard with tries left");
        }
        let own = visits.rows.iter().all(|row| *row < left.record.dest.elements as usize);
        if visits.action > 0 && own {
            vectors.hit("action of a floor");
        }
    }
    if visits.tries.iter().any(|trie| field(*trie, 0) > 65535) {
        vectors.hit("floor above 65535 taken by its last 16 bits");
    }
    if visits.tries.iter().any(|trie| field(*trie, 3) == 0 && field(*trie, 2) == left.record.elements) {
        vectors.hit("trie of E 0 at the end");
    }
    if visits.tries.windows(2).any(|pair| pair[1] >= pair[0]) {
        vectors.hit("next trie backwards or itself");
    }
    if verdict.reads() == 1088 {
        vectors.hit("1088 reads");
    }
}

/// Counts the clause that a refusal by 9 was given for, and the numbers of the source trie that it was met with.
fn count_damage(vectors: &mut Vectors, left: &Left, dest: u32, source: u32) {
    let Left { record, rows, list } = left;
    let mut called = 0;
    let damage = visit_calling(record, rows, list, dest, source, &mut called).expect_err("refused by 9");
    vectors.hit(&format!("damage {damage:?}"));
    let field = |place: usize| list[(called as usize - 1) * TRIE_ROW + place];
    match damage {
        Damage::Source(lookup::Damage::StrideTooLong) if field(1) > 255 => vectors.hit("root stride above 255"),
        Damage::SourcePastEnd if field(3) == 0 => vectors.hit("trie of E 0 past the end"),
        Damage::LinkPastList => {
            let own = walk(&record.dest, rows, dest).is_ok_and(|path| path.hop as u32 == called);
            if own && [1024, 65535].contains(&called) {
                vectors.hit(&format!("number {called} of a destination"));
            }
        }
        _ => (),
    }
}

/// Counts what a classification met.
fn count(vectors: &mut Vectors, left: &Left, dest: u32, source: u32) {
    let width = left.record.dest.width;
    match answer(left, dest, source) {
        Ok(verdict) => {
            vectors.hit(match verdict {
                Verdict::Act { .. } => "classify act",
                Verdict::Discard { .. } => "classify discard",
                Verdict::NoRule { .. } => "classify no rule",
            });
            count_visits(vectors, left, dest, source, verdict);
        }
        Err(Refusal { number: 9, .. }) => {
            vectors.hit("classify refused 9");
            count_damage(vectors, left, dest, source);
        }
        Err(Refusal { number, .. }) => {
            vectors.hit(&format!("classify refused {number}"));
            match (number, dest as u64 >> width.min(63) == 0, source as u64 >> width.min(63) == 0) {
                (8, false, true) => vectors.hit("destination alone too large"),
                (8, true, false) => vectors.hit("source alone too large"),
                _ => (),
            }
        }
    }
}

fn look(vectors: &mut Vectors, left: &Left, dest: u32, source: u32) {
    count(vectors, left, dest, source);
    let said = match answer(left, dest, source) {
        Ok(Verdict::Act { action, reads }) => format!("act {action} reads {reads}"),
        Ok(Verdict::Discard { reads }) => format!("discard reads {reads}"),
        Ok(Verdict::NoRule { reads }) => format!("none reads {reads}"),
        Err(refusal) => format!("refused {}", refusal.number),
    };
    vectors.case(format!("look {dest} {source}"), said);
}

fn sweep(vectors: &mut Vectors, left: &Left, dests: u32, sources: u32) {
    let mut answers = "sweep".to_string();
    for (dest, source) in (0..dests).flat_map(|dest| (0..sources).map(move |source| (dest, source))) {
        count(vectors, left, dest, source);
        answers += &match answer(left, dest, source) {
            Ok(Verdict::Act { action, reads }) => format!(" {action}/{reads}"),
            Ok(Verdict::Discard { reads }) => format!(" d/{reads}"),
            Ok(Verdict::NoRule { reads }) => format!(" 0/{reads}"),
            Err(refusal) => format!(" r{}", refusal.number),
        };
    }
    vectors.case(format!("sweep {dests} {sources}"), answers);
}

/// An answer of an accepted build is that of the scan over the rules, with few enough reads.
fn hold(rules: &Rules, left: &Left, dest: u32, source: u32) {
    let verdict = answer(left, dest, source).expect("an accepted build is not damaged");
    assert!(verdict == Verdict::of(rules.decide(dest, source), verdict.reads()));
    assert!(verdict.reads() <= 34 * left.record.dest.levels);
}

/// All pairs of addresses of an accepted build, held to the scan besides.
fn sweep_all(vectors: &mut Vectors, rules: &Rules, left: &Left) {
    let end = 1u32 << rules.width;
    (0..end * end).for_each(|pair| hold(rules, left, pair / end, pair % end));
    sweep(vectors, left, end, end);
}

/// One pair, held to the scan where the build was accepted and both addresses are of the width.
fn look_held(vectors: &mut Vectors, rules: &Rules, left: &Left, dest: u32, source: u32) {
    look(vectors, left, dest, source);
    if left.record.dest.width > 0 && (dest as u64).max(source as u64) < 1 << rules.width {
        hold(rules, left, dest, source);
    }
}

/// A record and lists of its own; `others` stands in every place of its strides but the first, and `more` numbers behind the
/// list of tries.
fn record(vectors: &mut Vectors, left: &mut Left, others: u8, more: usize) {
    left.record.dest.strides[1..].fill(others);
    let Left { record: RuleRecord { dest, elements }, rows: e, list } = left;
    let lists = [e.hop.len(), e.length.len(), e.link.len(), e.stride.len()];
    let n = lists.into_iter().max().unwrap_or(0);
    let listed: String = lists.iter().chain([&list.len()]).map(|list| format!(" {list}")).collect();
    let given: String = (0..n).map(|i| row(e, i)).collect();
    let numbers: String = (0..list.len() + more).map(|i| format!(" {}", list.get(i).unwrap_or(&77))).collect();
    let fields = fields(dest);
    vectors.case(
        format!(
            "record {fields} stride {} others {others} all {elements} lists{listed} rows {n}:{given} list {}:{numbers}",
            dest.strides[0],
            list.len() + more
        ),
        "record".to_string(),
    );
}

/// The seven rules of source document 004's figure 3 in 02's order; an action is the number of its filter.
fn figure(width: u32) -> Rules {
    let at = |bits: u32, length: u32| (bits << (width - length), length as u8);
    let rule = |d: (u32, u8), s: (u32, u8), action| (d.0, d.1, s.0, s.1, action);
    let seven: [Rule; 7] = [
        rule(at(0, 1), at(1, 1), 7),
        rule(at(0, 1), at(12, 4), 1),
        rule(at(0, 1), at(14, 4), 2),
        rule(at(0, 1), at(15, 4), 3),
        rule(at(0, 3), at(2, 2), 4),
        rule(at(0, 3), at(3, 2), 5),
        rule(at(1, 4), at(0, 3), 6),
    ];
    Rules::of(width, &seven)
}

pub fn write(top: &str) {
    let mut vectors = Vectors::default();
    let mut random = Random::new(7);
    made::examples(&mut vectors);
    made::edges(&mut vectors);
    made::discards(&mut vectors);
    made::nested(&mut vectors);
    made::every(&mut vectors);
    made::small(&mut vectors, &mut random);
    made::wide(&mut vectors, &mut random);
    made::many(&mut vectors);
    refused::unequal(&mut vectors);
    refused::ranges(&mut vectors);
    refused::faults(&mut vectors, &mut random);
    refused::rooms(&mut vectors, &mut random);
    refused::large(&mut vectors);
    linked::actions(&mut vectors);
    linked::many(&mut vectors);
    harmed::examples(&mut vectors);
    harmed::chains(&mut vectors);
    harmed::harmed(&mut vectors, &mut random);
    harmed::noise(&mut vectors, &mut random);
    refused::bad(&mut vectors);
    vectors.write(top, "rule_cases", WANTED, &KINDS.map(name));
}
