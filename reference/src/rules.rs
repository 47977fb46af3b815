//! Rules of two fields, destination and source (02, [6]): their tests, which of them wins, the build of all tries and the
//! classification. The winner is found by a scan over the rules that knows no trie. A trie is what 01's build lays for
//! its table: that of the distinct destinations, whose hops are the numbers of the source tries, or that of the sources
//! of one destination with their actions.

use crate::build::{lay, test_levels, Elements, Record, ELEMENTS, SCRATCH_ROW};
use crate::choices::{choose, Choice, Kind, LEVELS};
use crate::lookup::{self, walk, walk_in, Path};
use crate::table::{bits, lacks_link, malformed, refuse, test_width, Refusal, Table, DISCARD, LINKS};
use crate::trie::Trie;
use std::collections::BTreeMap;

/// The most rules.
pub const RULES: usize = 1024;
/// The numbers of a row of the list of tries (02 allows 48): floor, root stride, place, E, and the next trie.
pub const TRIE_ROW: usize = 5;
/// No more source tries are visited: at most so many destinations begin one address.
pub const VISITS: usize = 33;

/// Five lists, of equal length where the rules are good, the width of both fields, and the number of links that the caller
/// states (02, [7]). There is no default, as there is none of a table.
#[derive(Clone, PartialEq, Eq, Debug)]
pub struct Rules {
    pub width: u32,
    pub links: u16,
    pub dest_value: Vec<u32>,
    pub dest_length: Vec<u8>,
    pub source_value: Vec<u32>,
    pub source_length: Vec<u8>,
    pub action: Vec<u16>,
}

/// One rule: value and length of its destination and of its source, and its action.
pub type Rule = (u32, u8, u32, u8, u16);

impl Rules {
    /// These rules in a gateway with the most links, where any action but 0 is accepted.
    pub fn of(width: u32, rules: &[Rule]) -> Rules {
        Rules {
            width,
            links: LINKS,
            dest_value: rules.iter().map(|rule| rule.0).collect(),
            dest_length: rules.iter().map(|rule| rule.1).collect(),
            source_value: rules.iter().map(|rule| rule.2).collect(),
            source_length: rules.iter().map(|rule| rule.3).collect(),
            action: rules.iter().map(|rule| rule.4).collect(),
        }
    }

    /// The same rules in a gateway with another number of links.
    pub fn with_links(&self, links: u16) -> Rules {
        Rules { links, ..self.clone() }
    }

    pub fn count(&self) -> usize {
        self.dest_value.len()
    }

    /// The lengths of the five lists.
    pub fn lengths(&self) -> [usize; 5] {
        [
            self.dest_value.len(),
            self.dest_length.len(),
            self.source_value.len(),
            self.source_length.len(),
            self.action.len(),
        ]
    }

    /// The destination's own bit string; below the source's. Only for rules that passed test 4.
    fn dest(&self, i: usize) -> String {
        bits(self.width, self.dest_value[i], self.dest_length[i] as u32)
    }

    fn source(&self, i: usize) -> String {
        bits(self.width, self.source_value[i], self.source_length[i] as u32)
    }

    /// Among the matching rules the longest destination wins, then the longest source.
    pub fn winner(&self, dest: u32, source: u32) -> Option<usize> {
        let (dest, source) = (bits(self.width, dest, self.width), bits(self.width, source, self.width));
        let matches = |i: &usize| dest.starts_with(&self.dest(*i)) && source.starts_with(&self.source(*i));
        (0..self.count()).filter(matches).max_by_key(|i| (self.dest_length[*i], self.source_length[*i]))
    }

    /// The action of the rule that wins, else 0.
    pub fn decide(&self, dest: u32, source: u32) -> u16 {
        self.winner(dest, source).map_or(0, |i| self.action[i])
    }

    /// Test 3: lists of unequal length, or more than 1,024 rules.
    fn test_lists(&self) -> Result<(), Refusal> {
        let n = self.count();
        if self.lengths().iter().any(|length| *length != n) || n > RULES {
            return refuse(3, 0);
        }
        Ok(())
    }

    /// Rules rise by destination value and length, then by source value and length.
    fn order(&self, i: usize) -> (u32, u8, u32, u8) {
        (self.dest_value[i], self.dest_length[i], self.source_value[i], self.source_length[i])
    }

    /// Tests 4 and 5 go rule by rule, 4 first at each; the lowest index is reported.
    fn test_rules(&self) -> Result<(), Refusal> {
        for i in 0..self.count() {
            let bad_dest = malformed(self.width, self.dest_value[i], self.dest_length[i]);
            let bad_source = malformed(self.width, self.source_value[i], self.source_length[i]);
            let bad_action = self.action[i] == 0 || lacks_link(self.action[i], self.links);
            if bad_dest || bad_source || bad_action {
                return refuse(4, i as u64);
            }
            if i > 0 && self.order(i) <= self.order(i - 1) {
                return refuse(5, i as u64);
            }
        }
        Ok(())
    }

    /// Tests 3, 4 and 5, for which the width must be one.
    pub fn check(&self) -> Result<(), Refusal> {
        self.test_lists()?;
        self.test_rules()
    }

    /// The distinct destinations as they rise, each with its rules.
    fn groups(&self) -> BTreeMap<(u32, u8), Vec<usize>> {
        let mut groups: BTreeMap<(u32, u8), Vec<usize>> = BTreeMap::new();
        for i in 0..self.count() {
            groups.entry((self.dest_value[i], self.dest_length[i])).or_default().push(i);
        }
        groups
    }

    /// The table of each trie: first the destinations, with the numbers of the source tries for hops, which are no hops of links
    /// and need none (02, [7]), then the sources of each destination with their actions.
    pub fn tables(&self) -> Vec<Table> {
        let groups = self.groups();
        let mut dests = Table::empty(self.width, LINKS);
        let mut tables = vec![];
        for ((value, length), rules) in groups {
            dests.value.push(value);
            dests.length.push(length);
            dests.hop.push(dests.value.len() as u16);
            tables.push(Table {
                width: self.width,
                links: self.links,
                value: rules.iter().map(|i| self.source_value[*i]).collect(),
                length: rules.iter().map(|i| self.source_length[*i]).collect(),
                hop: rules.iter().map(|i| self.action[*i]).collect(),
            });
        }
        tables.insert(0, dests);
        tables
    }
}

/// The destination trie's own record, and the E of all tries.
#[derive(Clone, Copy, PartialEq, Eq, Debug, Default)]
pub struct RuleRecord {
    pub dest: Record,
    pub elements: u32,
}

/// A trie and the strides of its blocks.
struct Planned {
    table: Table,
    trie: Trie,
    choice: Choice,
}

/// Tests 1 to 6, in order, and the tries they allow. 6: scratch has fewer whole rows than all tries have 1-bit nodes.
fn tested(kind: Kind, levels: u32, rules: &Rules, scratch: &[u64]) -> Result<Vec<Planned>, Refusal> {
    test_width(rules.width)?;
    test_levels(levels)?;
    rules.check()?;
    let tables = rules.tables();
    let tries: Vec<Trie> = tables.iter().map(Trie::of).collect();
    let nodes: usize = tries.iter().map(Trie::size).sum();
    if scratch.len() / SCRATCH_ROW < nodes {
        return refuse(6, nodes as u64);
    }
    let planned = |(table, trie)| Planned { choice: choose(kind, &trie, levels), table, trie };
    Ok(tables.into_iter().zip(tries).map(planned).collect())
}

/// 7: the E of all tries exceeds the shortest element list, or 16,777,216; then the list of tries has too few whole rows.
fn test_room(tries: &[Planned], to: &Elements, list: &[u32]) -> Result<(), Refusal> {
    let rows: u64 = tries.iter().map(|trie| trie.choice.cost).sum();
    if rows > to.shortest() as u64 || rows > ELEMENTS {
        return refuse(7, rows);
    }
    let sources = tries.len() - 1;
    if list.len() / TRIE_ROW < sources {
        return refuse(7, sources as u64);
    }
    Ok(())
}

/// The number of the trie of the longest destination that is shorter than this one and a start of it, else 0.
fn next(dests: &[String], this: &str) -> u32 {
    let is_start = |j: &usize| dests[*j].len() < this.len() && this.starts_with(&dests[*j]);
    let longest = (0..dests.len()).filter(is_start).max_by_key(|j| dests[*j].len());
    longest.map_or(0, |j| j as u32 + 1)
}

fn write<T: Copy>(list: &mut [T], place: usize, laid: &[T]) {
    list[place..place + laid.len()].copy_from_slice(laid);
}

/// Refusals 1 to 6 change no list. Either 7 zeroes all scratch and changes no other list. An accepted build zeroes all
/// scratch, writes the rows of all tries, the destinations' first, and a row of the list for each source trie, and keeps
/// later rows and numbers. A refused build's record is all zeros.
pub fn build_rules(
    kind: Kind,
    levels: u32,
    rules: &Rules,
    scratch: &mut [u64],
    to: &mut Elements,
    list: &mut [u32],
) -> (Result<(), Refusal>, RuleRecord) {
    let tries = match tested(kind, levels, rules, scratch) {
        Err(refusal) => return (Err(refusal), RuleRecord::default()),
        Ok(tries) => tries,
    };
    scratch.fill(0);
    if let Err(refusal) = test_room(&tries, to, list) {
        return (Err(refusal), RuleRecord::default());
    }
    let dests = tries[0].table.entries();
    let mut place = 0;
    for (number, Planned { table, trie, choice }) in tries.iter().enumerate() {
        let laid = lay(table, trie, choice);
        let e = laid.hop.len();
        assert!(e as u64 == choice.cost, "E is the cost");
        write(&mut to.hop, place, &laid.hop);
        write(&mut to.length, place, &laid.length);
        write(&mut to.link, place, &laid.link);
        write(&mut to.stride, place, &laid.stride);
        if number > 0 {
            let root = choice.strides()[0] as u32;
            let row = [table.floor() as u32, root, place as u32, e as u32, next(&dests, &dests[number - 1])];
            write(list, (number - 1) * TRIE_ROW, &row);
        }
        place += e;
    }
    let Planned { table, choice, .. } = &tries[0];
    let (elements, floor, strides) = (choice.cost as u32, table.floor(), choice.strides());
    let dest = Record { width: rules.width, levels, elements, floor, strides };
    (Ok(()), RuleRecord { dest, elements: place as u32 })
}

/// An action with the blocks read in all tries, a discard likewise, or no rule.
#[derive(Clone, Copy, PartialEq, Eq, Debug)]
pub enum Verdict {
    Act { action: u16, reads: u32 },
    Discard { reads: u32 },
    NoRule { reads: u32 },
}

impl Verdict {
    /// Action 0 means no rule, 65,535 discard.
    pub fn of(action: u16, reads: u32) -> Verdict {
        match action {
            0 => Verdict::NoRule { reads },
            DISCARD => Verdict::Discard { reads },
            _ => Verdict::Act { action, reads },
        }
    }

    pub fn action(self) -> u16 {
        match self {
            Verdict::Act { action, .. } => action,
            Verdict::Discard { .. } => DISCARD,
            Verdict::NoRule { .. } => 0,
        }
    }

    pub fn reads(self) -> u32 {
        match self {
            Verdict::Act { reads, .. } | Verdict::Discard { reads } | Verdict::NoRule { reads } => reads,
        }
    }
}

/// The clauses of refusal 9, in 02's words; 01's rule in the destination trie, or in a source trie, by its own.
#[derive(Clone, Copy, PartialEq, Eq, PartialOrd, Ord, Debug)]
pub enum Damage {
    ListsTooShort,
    DestinationPastEnd,
    Destination(lookup::Damage),
    LinkPastList,
    SourcePastEnd,
    Source(lookup::Damage),
    TooManyTries,
}

/// What a classification meets: the action, the rows of the list of tries that it visits, in order, and the element rows that
/// it reads in all tries.
#[derive(Clone, PartialEq, Eq, Debug)]
pub struct Visits {
    pub action: u16,
    pub tries: Vec<usize>,
    pub rows: Vec<usize>,
}

/// Tests 1, 2, 8 (either address), then 9.
pub fn classify(
    record: &RuleRecord,
    rows: &Elements,
    list: &[u32],
    dest: u32,
    source: u32,
) -> Result<Verdict, Refusal> {
    test_width(record.dest.width)?;
    test_levels(record.dest.levels)?;
    let end = 1u64 << record.dest.width;
    if dest as u64 >= end || source as u64 >= end {
        return refuse(8, 0);
    }
    match visit(record, rows, list, dest, source) {
        Ok(visits) => Ok(Verdict::of(visits.action, visits.rows.len() as u32)),
        Err(_) => refuse(9, 0),
    }
}

/// The visits themselves, after tests 1, 2 and 8. `Err` says which clause of 9 was met.
pub fn visit(record: &RuleRecord, rows: &Elements, list: &[u32], dest: u32, source: u32) -> Result<Visits, Damage> {
    visit_calling(record, rows, list, dest, source, &mut 0)
}

/// The same. `called` is left the number of the source trie called for last, as it was where none is: a clause of 9 that is not about
/// the destinations was met with this one.
pub fn visit_calling(
    record: &RuleRecord,
    rows: &Elements,
    list: &[u32],
    dest: u32,
    source: u32,
    called: &mut u32,
) -> Result<Visits, Damage> {
    if record.elements as u64 > rows.shortest() as u64 {
        return Err(Damage::ListsTooShort);
    }
    if record.dest.elements > record.elements {
        return Err(Damage::DestinationPastEnd);
    }
    let path = walk(&record.dest, rows, dest).map_err(Damage::Destination)?;
    let mut visits = Visits { action: 0, tries: vec![], rows: path.rows };
    let mut number = path.hop as u32;
    // A trie that matches ends the visits, a discard too.
    while number > 0 && visits.action == 0 {
        *called = number;
        if visits.tries.len() == VISITS {
            return Err(Damage::TooManyTries);
        }
        let trie = SourceTrie::at(list, number).ok_or(Damage::LinkPastList)?;
        if trie.place as u64 + trie.elements as u64 > record.elements as u64 {
            return Err(Damage::SourcePastEnd);
        }
        let path = trie.walk(&record.dest, rows, source).map_err(Damage::Source)?;
        visits.tries.push(number as usize - 1);
        visits.rows.extend(path.rows.iter().map(|row| trie.place as usize + row));
        visits.action = path.hop;
        number = trie.next;
    }
    Ok(visits)
}

/// A row of the list of tries, its floor as found.
#[derive(Clone, Copy)]
struct SourceTrie {
    floor: u16,
    root: u32,
    place: u32,
    elements: u32,
    next: u32,
}

impl SourceTrie {
    /// Trie n is row n - 1; only whole rows count.
    fn at(list: &[u32], number: u32) -> Option<SourceTrie> {
        let row = list.chunks_exact(TRIE_ROW).nth(number as usize - 1)?;
        let floor = (row[0] % 65536) as u16;
        Some(SourceTrie { floor, root: row[1], place: row[2], elements: row[3], next: row[4] })
    }

    /// 01's walk with width and level limit of the destination's record, in the lists from the trie's place on.
    fn walk(self, dest: &Record, rows: &Elements, source: u32) -> Result<Path, lookup::Damage> {
        if self.root > dest.width {
            return Err(lookup::Damage::StrideTooLong);
        }
        let (width, levels, strides) = (dest.width, dest.levels, [self.root as u8; LEVELS]);
        let record = Record { width, levels, elements: self.elements, floor: self.floor, strides };
        walk_in(&record, rows.part(self.place as usize), source)
    }
}
