//! How often each call gave each answer.

use reference::bitmap;
use reference::build::Record;
use reference::choices::LEVELS;
use reference::lookup::Damage;
use reference::rules::{self, Verdict, RULES, VISITS};
use reference::table::{lacks_link, Table, DISCARD, ENTRIES, LINKS};
use std::collections::BTreeMap;

/// Refusals are 1 to 10; 0 is accepted.
const NUMBERS: usize = 11;

#[derive(Clone, Copy, PartialEq, Eq, PartialOrd, Ord, Debug)]
pub enum Call {
    Check,
    SharedLength,
    ZoneSpan,
    ChooseFixed,
    ChooseVariable,
    BuildFixed,
    BuildVariable,
    Lookup,
    BatchedLookup,
    BuildBitmap,
    LookupBitmap,
    BuildRulesFixed,
    BuildRulesVariable,
    Classify,
}

const CALLS: [Call; 14] = [
    Call::Check,
    Call::SharedLength,
    Call::ZoneSpan,
    Call::ChooseFixed,
    Call::ChooseVariable,
    Call::BuildFixed,
    Call::BuildVariable,
    Call::Lookup,
    Call::BatchedLookup,
    Call::BuildBitmap,
    Call::LookupBitmap,
    Call::BuildRulesFixed,
    Call::BuildRulesVariable,
    Call::Classify,
];

/// What the answers of a call showed of links (02, [7]): refusals by 4 at a hop without a link, and where there are fewer links than
/// the most, what was accepted with a hop of the last link, and with a discard past the links.
#[derive(Clone, Copy, Default)]
struct Linked {
    refused: u64,
    last: u64,
    discards: u64,
}

#[derive(Default)]
pub struct Tally {
    numbers: [[u64; NUMBERS]; CALLS.len()],
    linked: [Linked; CALLS.len()],
    damages: BTreeMap<Damage, u64>,
    bitmap_damages: BTreeMap<bitmap::Damage, u64>,
    pub no_routes: u64,
    pub discards: u64,
    /// Answers with a length that no prefix of the width has; and refusals by 7 and by 9 for which the length list alone is too short.
    pub damaged_lengths: u64,
    pub short_for_builds: u64,
    pub short_for_lookups: u64,
    pub batches: u64,
    pub longest: u64,
    /// The most reads of a lookup in elements.
    pub most_reads: u32,
    /// Tables that were checked: of just as many entries as there may be, and of more.
    most_entries: u64,
    more_entries: u64,
    /// Accepted builds with more than 8 levels, with the most levels, and with as many strides.
    many_levels: u64,
    most_levels: u64,
    most_strides: u64,
    /// Of lookups in bitmaps: those without a route, those that discard, those held to longest match besides, and those held to the hop
    /// and the length that the elements of the same table gave.
    pub bitmap_no_routes: u64,
    pub bitmap_discards: u64,
    pub bitmap_longest: u64,
    pub agreed: u64,
    rule_damages: BTreeMap<rules::Damage, u64>,
    /// Of classifications: those without a rule, those that discard, those held to the scan, those that visited more than one source trie,
    /// and those that visited as many as may be.
    no_rules: u64,
    rule_discards: u64,
    pub scanned: u64,
    chained: u64,
    most_tries: u64,
    most_rule_reads: u32,
    /// Lists of just as many rules as there may be, and of more; and refusals by 7 for the list of tries.
    most_rules: u64,
    more_rules: u64,
    pub short_of_tries: u64,
}

fn by_clause<T: std::fmt::Debug>(damages: &BTreeMap<T, u64>) -> String {
    damages.iter().map(|(damage, times)| format!("{damage:?} {times}")).collect::<Vec<_>>().join(", ")
}

impl Tally {
    pub fn count(&mut self, call: Call, number: u32) {
        self.numbers[call as usize][number as usize] += 1;
    }

    /// A call that states so many links for these hops or actions.
    pub fn linked(&mut self, call: Call, (hops, links): (&[u16], u16), number: u32, detail: u64) {
        self.count(call, number);
        let shown = &mut self.linked[call as usize];
        match number {
            0 if links < LINKS => {
                shown.last += hops.contains(&links) as u64;
                shown.discards += hops.contains(&DISCARD) as u64;
            }
            4 => shown.refused += lacks_link(hops[detail as usize], links) as u64,
            _ => (),
        }
    }

    pub fn table(&mut self, call: Call, table: &Table, number: u32, detail: u64) {
        self.linked(call, (&table.hop, table.links), number, detail);
    }

    pub fn entries(&mut self, n: usize) {
        self.most_entries += (n == ENTRIES) as u64;
        self.more_entries += (n > ENTRIES) as u64;
    }

    pub fn accepted(&mut self, record: &Record) {
        self.many_levels += (record.levels > 8) as u64;
        self.most_levels += (record.levels == LEVELS as u32) as u64;
        self.most_strides += (record.strides[LEVELS - 1] > 0) as u64;
    }

    pub fn damage(&mut self, damage: Damage) {
        *self.damages.entry(damage).or_insert(0) += 1;
    }

    pub fn bitmap_damage(&mut self, damage: bitmap::Damage) {
        *self.bitmap_damages.entry(damage).or_insert(0) += 1;
    }

    pub fn rule_damage(&mut self, damage: rules::Damage) {
        *self.rule_damages.entry(damage).or_insert(0) += 1;
    }

    pub fn rules(&mut self, n: usize) {
        self.most_rules += (n == RULES) as u64;
        self.more_rules += (n > RULES) as u64;
    }

    /// An accepted classification that visited so many source tries.
    pub fn verdict(&mut self, verdict: Verdict, tries: usize) {
        self.no_rules += matches!(verdict, Verdict::NoRule { .. }) as u64;
        self.rule_discards += matches!(verdict, Verdict::Discard { .. }) as u64;
        self.chained += (tries > 1) as u64;
        self.most_tries += (tries == VISITS) as u64;
        self.most_rule_reads = self.most_rule_reads.max(verdict.reads());
    }

    pub fn of(&self, call: Call) -> u64 {
        self.numbers[call as usize].iter().sum()
    }

    /// Builds of elements; and below lookups in them.
    pub fn builds(&self) -> u64 {
        self.of(Call::BuildFixed) + self.of(Call::BuildVariable)
    }

    pub fn lookups(&self) -> u64 {
        self.of(Call::Lookup) + self.of(Call::BatchedLookup)
    }

    /// What was done until a difference was met.
    pub fn done(&self) -> String {
        let (bitmaps, asked) = (self.of(Call::BuildBitmap), self.of(Call::LookupBitmap));
        let rules = self.of(Call::BuildRulesFixed) + self.of(Call::BuildRulesVariable);
        let (builds, lookups, classified) = (self.builds(), self.lookups(), self.of(Call::Classify));
        format!(
            "{builds} builds, {lookups} lookups, {bitmaps} bitmaps, {asked} lookups in these, {rules} builds of rules, \
             {classified} classifications"
        )
    }

    fn print_rules(&self) {
        println!("classifications without a rule: {}; that discard: {}", self.no_rules, self.rule_discards);
        println!("refusal 9 of classifications by clause: {}", by_clause(&self.rule_damages));
        println!("actions held to a scan over the rules: {}", self.scanned);
        println!("that visited source tries, more than one: {}; {VISITS}: {}", self.chained, self.most_tries);
        println!("most reads of a classification: {}", self.most_rule_reads);
        println!("lists of {RULES} rules: {}; of more: {}", self.most_rules, self.more_rules);
        println!("builds of rules refused for the list of tries: {}", self.short_of_tries);
    }

    fn print_links(&self) {
        for (call, Linked { refused, last, discards }) in CALLS.into_iter().zip(self.linked) {
            if refused + last + discards > 0 {
                println!(
                    "{call:?}: refused at a hop without a link: {refused}; accepted with a hop of the last link: {last}, \
                     with a discard past the links: {discards}"
                );
            }
        }
    }

    pub fn print(&self) {
        for call in CALLS {
            let numbers = self.numbers[call as usize];
            let refused: String = (1..NUMBERS)
                .filter(|number| numbers[*number] > 0)
                .map(|number| format!(", refused by {number}: {}", numbers[number]))
                .collect();
            println!("{call:?}: {} calls, accepted: {}{refused}", self.of(call), numbers[0]);
        }
        self.print_links();
        println!("lookups without a route: {}; that discard: {}", self.no_routes, self.discards);
        println!("refusal 9 by clause: {}", by_clause(&self.damages));
        let (builds, lookups) = (self.short_for_builds, self.short_for_lookups);
        println!("lengths above the width: {}", self.damaged_lengths);
        println!("refused for the length list alone: {builds} builds, {lookups} lookups");
        println!("batches: {}; answers held to longest match besides: {}", self.batches, self.longest);
        println!("tables of {ENTRIES} entries checked: {}; of more: {}", self.most_entries, self.more_entries);
        let (many, most, strides) = (self.many_levels, self.most_levels, self.most_strides);
        println!("accepted builds with k above 8: {many}; k = {LEVELS}: {most}; {LEVELS} strides: {strides}");
        println!("most reads of a lookup in elements: {}", self.most_reads);
        let clauses = by_clause(&self.bitmap_damages);
        println!(
            "lookups in bitmaps without a route: {}; that discard: {}",
            self.bitmap_no_routes, self.bitmap_discards
        );
        println!("refusal 9 in bitmaps by clause: {clauses}");
        println!(
            "held to longest match besides: {}; to the elements' hop and length: {}",
            self.bitmap_longest, self.agreed
        );
        self.print_rules();
        println!("{}", self.done());
    }
}
