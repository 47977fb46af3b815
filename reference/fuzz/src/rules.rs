//! Rules of two fields: the archive's build and classifications and the reference's, compared in everything, and over what an
//! accepted build left the actions compared with a scan over the rules that knows no trie.

use crate::rule_harm::{self, Arrays};
use crate::rule_lists;
use crate::tally::Call;
use crate::trying::{c_record, numbers, same, same_list, Same, Trial, SMALL, SPARE};
use hongsamuk::raw;
use reference::build::SCRATCH_ROW;
use reference::choices::{choose, Kind, LEVELS};
use reference::rules::{build_rules, classify, visit, RuleRecord, Rules, Verdict, TRIE_ROW};
use reference::table::Refusal;
use reference::trie::Trie;

/// All pairs of addresses are asked where each field has at most so many bits.
const ALL: u32 = 2;
/// Where a difference is told, a longer list is named by how many rules it has.
const NAMED: usize = 100;

/// What a build needs: 1-bit nodes, elements and rows of the list of tries, over all tries.
pub struct Needed {
    pub nodes: usize,
    pub elements: u64,
    pub tries: usize,
}

/// Of rules that are refused any few.
pub fn needed(kind: Kind, levels: u32, rules: &Rules) -> Needed {
    let good = (1..=32).contains(&rules.width) && (1..=LEVELS as u32).contains(&levels);
    if !good || rules.check().is_err() {
        return Needed { nodes: 2, elements: 9, tries: 2 };
    }
    let tries: Vec<Trie> = rules.tables().iter().map(Trie::of).collect();
    let elements = tries.iter().map(|trie| choose(kind, trie, levels).cost).sum();
    Needed { nodes: tries.iter().map(Trie::size).sum(), elements, tries: tries.len() - 1 }
}

fn c_rules(record: &RuleRecord) -> hongsamuk::RuleRecord {
    hongsamuk::RuleRecord { dest: c_record(&record.dest), elements: record.elements }
}

fn c_verdict(verdict: Result<Verdict, Refusal>) -> raw::Verdict {
    match verdict {
        Ok(verdict) => raw::Verdict { number: 0, action: verdict.action(), reads: verdict.reads() },
        Err(refusal) => raw::Verdict { number: refusal.number, ..raw::Verdict::default() },
    }
}

fn named(rules: &Rules) -> String {
    match rules.count() {
        0..=NAMED => format!("{rules:?}"),
        n => format!("{n} rules, width {}, links {}", rules.width, rules.links),
    }
}

impl Trial<'_> {
    /// Lists about as long as are needed: often one of the four is another length than the rest.
    fn rule_lengths(&mut self, elements: u64) -> [usize; 4] {
        let about = elements.min(SMALL.rule_rows as u64 - 20);
        let about = if self.random.one_in(8) { self.random.within(0, about) } else { about };
        let mut lengths = [about as usize; 4];
        if self.random.one_in(2) {
            lengths = [0; 4].map(|_| about as usize + self.random.within(0, 9) as usize);
            lengths[self.random.within(0, 3) as usize] = self.around(about, 9);
        }
        lengths
    }

    /// Rules of any kind, over lists about as long as they need.
    pub fn rules(&mut self) -> Same {
        let rules = rule_lists::any(&mut self.random);
        let (kind, levels) = (self.kind(), self.levels());
        let need = needed(kind, levels, &rules);
        let words = ((need.nodes * SCRATCH_ROW) as u64).min(SMALL.rule_words as u64 - SPARE);
        let words = self.around(words, SPARE);
        let rows = self.rule_lengths(need.elements);
        let list = self.around((need.tries * TRIE_ROW) as u64, 9);
        let told = |text| format!("{} {kind:?} levels {levels}: {text}", named(&rules));
        self.rules_over(&rules, kind, levels, (words, rows, list)).map(|_| ()).map_err(told)
    }

    /// The build over lists of these lengths (scratch, elements, list of tries), and classifications where it is accepted. Answers
    /// number and detail, which both sides have, and the record.
    pub fn rules_over(
        &mut self,
        rules: &Rules,
        kind: Kind,
        levels: u32,
        (words, rows, numbers_of): (usize, [usize; 4], usize),
    ) -> Result<(Refusal, RuleRecord), String> {
        let mut scratch = self.marks(words, |mark| mark | 1);
        let (mut rows, mut list) = (self.rows(rows), self.marks(numbers_of, |mark| mark as u32));
        self.lists.lend_rules(rules, &mut self.random);
        self.lists.lend_scratch(&scratch, &mut self.random);
        self.lists.lend_rows(&rows, &mut self.random);
        self.lists.lend_tries(&list, &mut self.random);
        let (outcome, record) = build_rules(kind, levels, rules, &mut scratch, &mut rows, &mut list);
        let (number, detail) = numbers(outcome);
        let answer = self.lists.build_rules(kind, rules.width, levels, rules.links);
        let call = if kind == Kind::Fixed { Call::BuildRulesFixed } else { Call::BuildRulesVariable };
        self.tally.linked(call, (&rules.action, rules.links), number, detail);
        self.tally.rules(rules.count());
        self.tally.short_of_tries += (number == 7 && detail <= rows.shortest() as u64) as u64;
        same("build of rules", answer, raw::BuiltRules { number, detail, record: c_rules(&record) })?;
        same_list("scratch after the build of rules", self.lists.scratch.held(), &scratch)?;
        self.same_rows(&rows)?;
        same_list("list of tries", self.lists.tries.held(), &list)?;
        if number == 0 {
            self.after_rules(rules, Arrays { record, rows, list })?;
        }
        Ok((Refusal { number, detail }, record))
    }

    /// Classifications over what an accepted build left, each held to the scan, then over the same damaged.
    fn after_rules(&mut self, rules: &Rules, mut arrays: Arrays) -> Same {
        let pairs = self.pairs(rules);
        let most = 34 * arrays.record.dest.levels;
        for (pair, answer) in pairs.iter().zip(self.classified(&arrays, &pairs)?) {
            if answer.number == 0 {
                self.tally.scanned += 1;
                same(&format!("the scan for {pair:?}"), answer.action, rules.decide(pair.0, pair.1))?;
                same(&format!("few reads for {pair:?}"), answer.reads <= most, true)?;
            }
        }
        if self.random.one_in(2) {
            rule_harm::harm(&mut arrays, &mut self.random);
            self.tried(&arrays, &pairs).map_err(|text| format!("damaged {arrays:?}: {text}"))?;
        }
        Ok(())
    }

    /// Records, rows and lists of tries of any numbers.
    pub fn rule_noise(&mut self) -> Same {
        let arrays = rule_harm::noise(&mut self.random);
        let below = 1u64 << arrays.record.dest.width;
        let pair = |trial: &mut Self| (trial.random.within(0, below) as u32, trial.random.within(0, below) as u32);
        let pairs: Vec<(u32, u32)> = (0..self.asked).map(|_| pair(self)).collect();
        self.tried(&arrays, &pairs).map_err(|text| format!("{arrays:?}: {text}"))
    }

    fn tried(&mut self, arrays: &Arrays, pairs: &[(u32, u32)]) -> Same {
        self.lists.lend_rows(&arrays.rows, &mut self.random);
        self.lists.lend_tries(&arrays.list, &mut self.random);
        self.classified(arrays, pairs).map(|_| ())
    }

    /// At and around a prefix, any, and some that are too large.
    fn near(&mut self, width: u32, prefix: Option<(u32, u8)>) -> u32 {
        let last = ((1u64 << width) - 1) as u32;
        let any = self.random.next() as u32 & last;
        let (value, length) = match prefix {
            Some(prefix) if !self.random.one_in(6) => prefix,
            _ => return if self.random.one_in(12) { self.random.next() as u32 } else { any },
        };
        let inside = ((1u64 << (width - length as u32)) - 1) as u32;
        match self.random.within(0, 5) {
            0 => value,
            1 => value | inside,
            2 => (value | inside).wrapping_add(1),
            _ => value | (any & inside),
        }
    }

    /// Pairs at and around rules; all of narrow fields, and the addresses behind them.
    fn pairs(&mut self, rules: &Rules) -> Vec<(u32, u32)> {
        if rules.width <= ALL {
            let end = 1 << rules.width;
            return (0..=end).flat_map(|dest| (0..=end).map(move |source| (dest, source))).collect();
        }
        let longest = (0..rules.count()).max_by_key(|i| rules.dest_length[*i]);
        let pair = |trial: &mut Self| {
            // Destination and source of one rule, or of two; often the longest destination, from which most tries are visited.
            let (i, j) = (trial.place(rules.count()), trial.place(rules.count()));
            let i = if trial.random.one_in(4) { longest } else { i };
            let j = if trial.random.one_in(3) { j } else { i };
            let dest = i.map(|i| (rules.dest_value[i], rules.dest_length[i]));
            let source = j.map(|j| (rules.source_value[j], rules.source_length[j]));
            (trial.near(rules.width, dest), trial.near(rules.width, source))
        };
        (0..self.asked).map(|_| pair(self)).collect()
    }

    /// One of n places, if there are any.
    fn place(&mut self, n: usize) -> Option<usize> {
        (n > 0).then(|| self.random.within(0, n as u64 - 1) as usize)
    }

    fn verdict(&mut self, arrays: &Arrays, dest: u32, source: u32) -> raw::Verdict {
        let Arrays { record, rows, list } = arrays;
        let verdict = classify(record, rows, list, dest, source);
        match verdict {
            Ok(verdict) => {
                let visits = visit(record, rows, list, dest, source).expect("accepted");
                self.tally.verdict(verdict, visits.tries.len());
            }
            Err(Refusal { number: 9, .. }) => {
                let damage = visit(record, rows, list, dest, source).expect_err("refused by 9");
                self.tally.rule_damage(damage);
            }
            Err(_) => (),
        }
        c_verdict(verdict)
    }

    /// The pairs over the arrays that are lent. Returns the archive's answers.
    fn classified(&mut self, arrays: &Arrays, pairs: &[(u32, u32)]) -> Result<Vec<raw::Verdict>, String> {
        let mut answers = vec![];
        for (dest, source) in pairs {
            let expected = self.verdict(arrays, *dest, *source);
            self.tally.count(Call::Classify, expected.number);
            let answer = self.lists.classify(c_rules(&arrays.record), *dest, *source);
            same(&format!("classification of {dest} and {source}"), answer, expected)?;
            answers.push(answer);
        }
        Ok(answers)
    }
}

/// Lists for rules whose lengths are just what they need.
pub fn exact(need: &Needed) -> (usize, [usize; 4], usize) {
    (need.nodes * SCRATCH_ROW, [need.elements as usize; 4], need.tries * TRIE_ROW)
}
