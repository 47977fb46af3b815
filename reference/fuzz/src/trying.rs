//! A case: one table or record, every call on it through the archive, and the reference's answers. Everything is compared: number,
//! detail, values, and after a call that may write, every place of every list that it may write. (Lists that it may not write are
//! lent from memory that cannot be written.)

use crate::calls::{shared_length, Answers, Lists, Most};
use crate::tally::{Call, Tally};
use crate::{harm, tables};
use hongsamuk::raw;
use reference::build::{build, chosen, Elements, Record, SCRATCH_ROW};
use reference::choices::{Kind, LEVELS};
use reference::lookup::{lookup, walk, Found};
use reference::random::Random;
use reference::rules::{RULES, TRIE_ROW};
use reference::table::{self, Refusal, Table, ENTRIES};
use reference::trie::Trie;

/// Lists of the small cases: 12 entries at width 32 have at most 384 nodes and 97 supernodes; longer element lists are not needed
/// at small widths. A table of the most entries is refused for scratch there. The most rules that are tried have 2,048 nodes and
/// 3,074 elements, or 4,096 with one level, which is refused for rows; 33 nested destinations have at most 1,088 nodes, any 12 rules 768.
pub const SMALL: Most = Most {
    entries: ENTRIES + 8,
    words: 385 * SCRATCH_ROW,
    rows: 1_200,
    supernodes: 128,
    addresses: 64,
    rules: RULES + 8,
    rule_words: 2_100 * SCRATCH_ROW,
    rule_rows: 3_200,
    numbers: (RULES + 4) * TRIE_ROW,
};
/// All addresses are asked where there are at most so many.
const ALL: u32 = 4;
/// The most words of scratch beyond those needed.
pub const SPARE: u64 = 30;
/// Where a difference is told, a table of more entries is named by how many they are.
const NAMED: usize = 100;

/// The two sides differ: what was asked, and both answers.
pub type Same = Result<(), String>;

pub fn same<T: PartialEq + std::fmt::Debug>(what: &str, archive: T, reference: T) -> Same {
    if archive == reference {
        return Ok(());
    }
    Err(format!("{what}: the archive has {archive:?}, the reference {reference:?}"))
}

/// Long lists are told by their first difference.
pub fn same_list<T: PartialEq + std::fmt::Debug>(what: &str, archive: &[T], reference: &[T]) -> Same {
    if archive == reference {
        return Ok(());
    }
    match archive.iter().zip(reference).position(|(a, b)| a != b) {
        Some(i) => same(&format!("{what} at {i}"), &archive[i], &reference[i]),
        None => same(&format!("length of {what}"), archive.len(), reference.len()),
    }
}

/// A table, where a difference is told.
fn named(table: &Table) -> String {
    match table.value.len() {
        0..=NAMED => format!("{table:?}"),
        n => format!("table of {n} entries, width {}, links {}", table.width, table.links),
    }
}

pub fn numbers(outcome: Result<(), Refusal>) -> (u32, u64) {
    outcome.map_or_else(|refusal| (refusal.number, refusal.detail), |()| (0, 0))
}

pub fn c_record(record: &Record) -> hongsamuk::Record {
    let Record { width, levels, elements, floor, strides } = *record;
    hongsamuk::Record { width, levels, elements, floor, strides }
}

pub fn c_answer(found: Result<Found, Refusal>) -> raw::Answer {
    match found {
        Ok(found) => raw::Answer { number: 0, hop: found.hop(), length: found.length(), reads: found.reads() },
        Err(refusal) => raw::Answer { number: refusal.number, ..raw::Answer::default() },
    }
}

/// Whether the length list alone is too short for so many elements.
fn is_short_of_lengths(elements: u64, rows: &Elements) -> bool {
    (rows.length.len() as u64) < elements && elements <= rows.shortest_but_lengths() as u64
}

pub struct Trial<'a> {
    pub lists: &'a mut Lists,
    pub tally: &'a mut Tally,
    pub random: Random,
    /// Addresses asked of each build, where not all are.
    pub asked: u64,
    /// What the last build of elements answers to the addresses that it was asked.
    pub answers: Vec<(u32, raw::Answer)>,
}

impl Trial<'_> {
    pub fn new<'a>(lists: &'a mut Lists, tally: &'a mut Tally, random: Random, asked: u64) -> Trial<'a> {
        Trial { lists, tally, random, asked, answers: vec![] }
    }

    /// Small level limits more often than large ones, which only a deep table tells from each other.
    pub fn levels(&mut self) -> u32 {
        match self.random.within(0, 39) {
            0 => harm::pick(&mut self.random, &[0, 33, 255, 256, u32::MAX]),
            1 => LEVELS as u32,
            2..=7 => self.random.within(9, LEVELS as u64) as u32,
            _ => self.random.within(1, 8) as u32,
        }
    }

    pub fn kind(&mut self) -> Kind {
        if self.random.one_in(2) {
            Kind::Fixed
        } else {
            Kind::Variable
        }
    }

    /// A number at, just below or above `about`, or any up to it.
    pub fn around(&mut self, about: u64, above: u64) -> usize {
        let length = match self.random.within(0, 15) {
            0 => about.saturating_sub(1),
            1 => self.random.within(0, about),
            2..=9 => about,
            _ => about + self.random.within(1, above),
        };
        length as usize
    }

    pub fn marks<T>(&mut self, length: usize, of: impl Fn(u64) -> T) -> Vec<T> {
        let first = self.random.next();
        (0..length as u64).map(|i| of(first.wrapping_mul(2 * i + 1) >> 7)).collect()
    }

    fn scratch(&mut self, table: &Table) -> Vec<u64> {
        let nodes = if table.check().is_ok() { Trie::of(table).size() } else { 2 };
        let about = (nodes * SCRATCH_ROW) as u64;
        let words = self.around(about.min(SMALL.words as u64 - SPARE), SPARE);
        self.marks(words, |mark| mark | 1)
    }

    /// Lists of the hops, lengths, links and strides.
    pub fn rows(&mut self, [hops, lengths, links, strides]: [usize; 4]) -> Elements {
        Elements {
            hop: self.marks(hops, |mark| mark as u16),
            length: self.marks(lengths, |mark| mark as u8),
            link: self.marks(links, |mark| mark as u32),
            stride: self.marks(strides, |mark| mark as u8),
        }
    }

    /// Element lists about as long as the least cost.
    fn room(&mut self, cost: u64) -> Elements {
        let about = cost.min(SMALL.rows as u64 - 20);
        let about = if self.random.one_in(8) { self.random.within(0, about) } else { about };
        let mut lengths = [about as usize + self.random.within(0, 9) as usize; 4];
        lengths[self.random.within(0, 3) as usize] = self.around(about, 9);
        if self.random.one_in(2) {
            lengths = [about as usize; 4];
        }
        self.rows(lengths)
    }

    /// One table through every call.
    pub fn table(&mut self) -> Same {
        let table = tables::any(&mut self.random);
        self.lists.lend_table(&table, &mut self.random);
        self.entries(&table).map_err(|text| format!("{}: {text}", named(&table)))?;
        let (kind, levels) = (self.kind(), self.levels());
        let told = |text| format!("{} {kind:?} levels {levels}: {text}", named(&table));
        let cost = self.choose(&table, kind, levels).map_err(told)?;
        self.build(&table, kind, levels, cost).map_err(told)?;
        self.bitmap(&table).map_err(told)
    }

    /// A given table through every call, with scratch for so many nodes and element lists of these lengths. Answers the build's
    /// number, detail and record.
    pub fn given(
        &mut self,
        table: &Table,
        nodes: usize,
        kind: Kind,
        levels: u32,
        rows: [usize; 4],
    ) -> Result<(Refusal, Record), String> {
        self.lists.lend_table(table, &mut self.random);
        self.entries(table)?;
        let scratch = self.marks(nodes * SCRATCH_ROW, |mark| mark | 1);
        let rows = self.rows(rows);
        let (outcome, record) = self.build_over(table, kind, levels, scratch, rows)?;
        let mut scratch = self.marks(nodes * SCRATCH_ROW, |mark| mark | 1);
        if outcome.number > 0 {
            self.choose_over(table, kind, levels, scratch)?;
            return Ok((outcome, record));
        }
        // The record has what the chooser must answer, so that the reference goes through its recurrence once.
        self.lists.lend_scratch(&scratch, &mut self.random);
        scratch.fill(0);
        let expected = raw::Chosen { number: 0, detail: 0, cost: record.elements.into(), strides: record.strides };
        self.chosen(table, kind, levels, expected, &scratch)?;
        Ok((outcome, record))
    }

    /// The chooser of a table that is lent, with one word of scratch less than so many nodes take.
    pub fn scarce(&mut self, table: &Table, nodes: usize, kind: Kind, levels: u32) -> Same {
        let scratch = self.marks(nodes * SCRATCH_ROW - 1, |mark| mark | 1);
        self.choose_over(table, kind, levels, scratch).map(|_| ())
    }

    fn entries(&mut self, table: &Table) -> Same {
        let (number, detail) = numbers(table.check());
        same("check", self.lists.check(table.width, table.links), raw::Checked { number, detail })?;
        self.tally.table(Call::Check, table, number, detail);
        self.tally.entries(table.value.len());
        let (prefix, bits) = tables::prefix(table, &mut self.random);
        let expected = match table.zone(prefix, bits) {
            Ok((index, count)) => raw::Span { number: 0, detail: 0, index: index as u32, count: count as u32 },
            Err(refusal) => raw::Span { number: refusal.number, detail: refusal.detail, index: 0, count: 0 },
        };
        let answer = self.lists.zone_span(table.width, table.links, prefix, bits);
        same(&format!("zone {prefix}/{bits}"), answer, expected)?;
        self.tally.table(Call::ZoneSpan, table, expected.number, expected.detail);
        let (other, more) = tables::prefix(table, &mut self.random);
        let expected = match table::shared_length(table.width, prefix, bits, other, more) {
            Ok(bits) => raw::Shared { number: 0, bits },
            Err(refusal) => raw::Shared { number: refusal.number, bits: 0 },
        };
        let answer = shared_length(table.width, (prefix, bits), (other, more));
        same(&format!("shared length of {prefix}/{bits} and {other}/{more}"), answer, expected)?;
        self.tally.count(Call::SharedLength, expected.number);
        Ok(())
    }

    /// Answers the cost that the reference finds, 0 where it refuses.
    fn choose(&mut self, table: &Table, kind: Kind, levels: u32) -> Result<u64, String> {
        let scratch = self.scratch(table);
        self.choose_over(table, kind, levels, scratch)
    }

    fn choose_over(&mut self, table: &Table, kind: Kind, levels: u32, mut scratch: Vec<u64>) -> Result<u64, String> {
        self.lists.lend_scratch(&scratch, &mut self.random);
        let (outcome, cost, strides) = chosen(kind, levels, table, &mut scratch);
        let (number, detail) = numbers(outcome);
        self.chosen(table, kind, levels, raw::Chosen { number, detail, cost, strides }, &scratch)?;
        Ok(cost)
    }

    /// What the archive's chooser answers, and what it leaves in the scratch that is lent.
    fn chosen(&mut self, table: &Table, kind: Kind, levels: u32, expected: raw::Chosen, scratch: &[u64]) -> Same {
        let answer = self.lists.choose(kind, table.width, levels, table.links);
        same("choice", answer, expected)?;
        same_list("scratch after the choice", self.lists.scratch.held(), scratch)?;
        let call = if kind == Kind::Fixed { Call::ChooseFixed } else { Call::ChooseVariable };
        self.tally.table(call, table, expected.number, expected.detail);
        Ok(())
    }

    fn build(&mut self, table: &Table, kind: Kind, levels: u32, cost: u64) -> Same {
        let (scratch, rows) = (self.scratch(table), self.room(cost));
        self.build_over(table, kind, levels, scratch, rows).map(|_| ())
    }

    /// The build over these lists, and lookups where it is accepted. Answers number, detail and record, which both sides have.
    fn build_over(
        &mut self,
        table: &Table,
        kind: Kind,
        levels: u32,
        mut scratch: Vec<u64>,
        mut rows: Elements,
    ) -> Result<(Refusal, Record), String> {
        self.answers.clear();
        self.lists.lend_scratch(&scratch, &mut self.random);
        self.lists.lend_rows(&rows, &mut self.random);
        let (outcome, record) = build(kind, levels, table, &mut scratch, &mut rows);
        let (number, detail) = numbers(outcome);
        let answer = self.lists.build(kind, table.width, levels, table.links);
        let call = if kind == Kind::Fixed { Call::BuildFixed } else { Call::BuildVariable };
        self.tally.table(call, table, number, detail);
        self.tally.short_for_builds += (number == 7 && is_short_of_lengths(detail, &rows)) as u64;
        same("build", answer, raw::Built { number, detail, record: c_record(&record) })?;
        same_list("scratch after the build", self.lists.scratch.held(), &scratch)?;
        self.same_rows(&rows)?;
        if number == 0 {
            self.tally.accepted(&record);
            self.after(table, record, rows)?;
        }
        Ok((Refusal { number, detail }, record))
    }

    /// Every place of the four element lists.
    pub fn same_rows(&self, rows: &Elements) -> Same {
        if self.lists.rows_are(rows) {
            return Ok(());
        }
        same_list("hops after the build", self.lists.row_hop.held(), &rows.hop)?;
        same_list("lengths after the build", self.lists.row_length.held(), &rows.length)?;
        same_list("links after the build", self.lists.row_link.held(), &rows.link)?;
        same_list("strides after the build", self.lists.row_stride.held(), &rows.stride)
    }

    /// Lookups over what an accepted build left, then over the same damaged.
    fn after(&mut self, table: &Table, mut record: Record, mut rows: Elements) -> Same {
        let addresses = self.addresses(table);
        self.longest(table, &record, &rows, addresses[0])?;
        let answers = self.look(&record, &rows, &addresses)?;
        self.answers = addresses.iter().copied().zip(answers).collect();
        if self.random.one_in(2) {
            harm::harm(&mut record, &mut rows, &mut self.random);
            self.lists.lend_rows(&rows, &mut self.random);
            let told = |text| format!("damaged {record:?} {rows:?}: {text}");
            self.look(&record, &rows, &addresses).map_err(told)?;
        }
        Ok(())
    }

    /// What the archive's answer is held to is itself held to longest match.
    fn longest(&mut self, table: &Table, record: &Record, rows: &Elements, address: u32) -> Same {
        if let Ok(found) = lookup(record, rows, address) {
            self.tally.longest += 1;
            let archive = self.lists.lookup(c_record(record), address);
            same("longest match", (archive.hop, archive.length), table.answer(address))?;
            same("longest match by the reference's rows", (found.hop(), found.length()), table.answer(address))?;
        }
        Ok(())
    }

    /// Records and rows of any numbers.
    pub fn noise(&mut self) -> Same {
        let (record, rows) = harm::noise(&mut self.random);
        self.lists.lend_rows(&rows, &mut self.random);
        let below = 1u64 << record.width;
        let addresses: Vec<u32> = (0..self.asked).map(|_| self.random.within(0, below) as u32).collect();
        self.look(&record, &rows, &addresses).map_err(|text| format!("{record:?} {rows:?}: {text}"))?;
        self.bitmap_noise()
    }

    /// At and around entries, any, and some that are too large; all of a narrow table's.
    pub fn addresses(&mut self, table: &Table) -> Vec<u32> {
        let last = ((1u64 << table.width) - 1) as u32;
        if table.width <= ALL {
            return (0..=last + 1).collect();
        }
        (0..self.asked)
            .map(|_| {
                let any = self.random.next() as u32 & last;
                let n = table.value.len() as u64;
                if n == 0 || self.random.one_in(4) {
                    return if self.random.one_in(8) { self.random.next() as u32 } else { any };
                }
                let i = self.random.within(0, n - 1) as usize;
                let inside = ((1u64 << (table.width - table.length[i] as u32)) - 1) as u32;
                match self.random.within(0, 4) {
                    0 => table.value[i],
                    1 => table.value[i] | inside,
                    2 => (table.value[i] | inside).wrapping_add(1),
                    _ => table.value[i] | (any & inside),
                }
            })
            .collect()
    }

    fn expected(&mut self, record: &Record, rows: &Elements, address: u32) -> raw::Answer {
        let found = lookup(record, rows, address);
        match found {
            Ok(found) => {
                self.tally.no_routes += matches!(found, Found::NoRoute { .. }) as u64;
                self.tally.discards += matches!(found, Found::Discard { .. }) as u64;
                self.tally.damaged_lengths += (u32::from(found.length()) > record.width) as u64;
                self.tally.most_reads = self.tally.most_reads.max(found.reads());
            }
            Err(refusal) if refusal.number == 9 => {
                self.tally.damage(walk(record, rows, address).expect_err("refused by 9"));
                self.tally.short_for_lookups += is_short_of_lengths(record.elements.into(), rows) as u64;
            }
            Err(_) => (),
        }
        c_answer(found)
    }

    /// The addresses one by one, then in a batch, over the rows that are lent. Returns the answers, which both sides have.
    fn look(&mut self, record: &Record, rows: &Elements, addresses: &[u32]) -> Result<Vec<raw::Answer>, String> {
        let mut answers = vec![];
        for address in addresses {
            let expected = self.expected(record, rows, *address);
            self.tally.count(Call::Lookup, expected.number);
            let answer = self.lists.lookup(c_record(record), *address);
            same(&format!("lookup of {address}"), answer, expected)?;
            answers.push(expected);
        }
        self.batch(record, addresses, &answers)?;
        Ok(answers)
    }

    fn batch(&mut self, record: &Record, addresses: &[u32], answers: &[raw::Answer]) -> Same {
        let about = addresses.len() as u64;
        let places = [0; 4].map(|_| self.around(about, 3));
        let mut to = Answers {
            number: self.marks(places[0], |mark| mark as u32),
            hop: self.marks(places[1], |mark| mark as u16),
            length: self.marks(places[2], |mark| mark as u8),
            reads: self.marks(places[3], |mark| mark as u32),
        };
        self.lists.lend_addresses(addresses, &mut self.random);
        self.lists.lend_answers(&to, &mut self.random);
        let count = places.into_iter().min().unwrap_or(0).min(addresses.len());
        for (i, answer) in answers[..count].iter().enumerate() {
            (to.number[i], to.hop[i]) = (answer.number, answer.hop);
            (to.length[i], to.reads[i]) = (answer.length, answer.reads);
            self.tally.count(Call::BatchedLookup, answer.number);
        }
        self.tally.batches += 1;
        same("length of the batch", self.lists.lookup_batch(c_record(record)), count)?;
        same_list("numbers of the batch", self.lists.number.held(), &to.number)?;
        same_list("hops of the batch", self.lists.best.held(), &to.hop)?;
        same_list("lengths of the batch", self.lists.matched.held(), &to.length)?;
        same_list("reads of the batch", self.lists.reads.held(), &to.reads)
    }
}
