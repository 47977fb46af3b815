//! The archive's calls over lent lists: what is only read is lent from the view that cannot be written.

use crate::memory::{Edge, Lent};
use hongsamuk::{raw, Bitmap, Record, RuleRecord};
use reference::bitmap::Supernodes;
use reference::build::Elements;
use reference::choices::Kind;
use reference::random::Random;
use reference::rules::Rules;
use reference::table::Table;

/// The memory for all lists of a case.
pub struct Lists {
    value: Lent<u32>,
    length: Lent<u8>,
    hop: Lent<u16>,
    dest_value: Lent<u32>,
    dest_length: Lent<u8>,
    source_value: Lent<u32>,
    source_length: Lent<u8>,
    action: Lent<u16>,
    pub scratch: Lent<u64>,
    pub row_hop: Lent<u16>,
    pub row_length: Lent<u8>,
    pub row_link: Lent<u32>,
    pub row_stride: Lent<u8>,
    pub internal: Lent<u16>,
    pub external: Lent<u16>,
    pub first_child: Lent<u32>,
    pub first_hop: Lent<u32>,
    pub hop_row: Lent<u16>,
    pub tries: Lent<u32>,
    address: Lent<u32>,
    pub number: Lent<u32>,
    pub best: Lent<u16>,
    pub matched: Lent<u8>,
    pub reads: Lent<u32>,
}

/// The four answer lists of a batch.
pub struct Answers {
    pub number: Vec<u32>,
    pub hop: Vec<u16>,
    pub length: Vec<u8>,
    pub reads: Vec<u32>,
}

/// The longest lists that are lent; words of scratch, element rows and numbers of the list of tries for rules besides.
pub struct Most {
    pub entries: usize,
    pub words: usize,
    pub rows: usize,
    pub supernodes: usize,
    pub addresses: usize,
    pub rules: usize,
    pub rule_words: usize,
    pub rule_rows: usize,
    pub numbers: usize,
}

/// Half of the lists without elements are null pointers.
fn lend<T: Copy + PartialEq>(lent: &mut Lent<T>, list: &[T], random: &mut Random) {
    lent.copy(list, random.one_in(2));
}

impl Lists {
    pub fn new(most: &Most, edge: Edge) -> Lists {
        let (words, rows) = (most.words.max(most.rule_words), most.rows.max(most.rule_rows));
        Lists {
            value: Lent::new(most.entries, edge),
            length: Lent::new(most.entries, edge),
            hop: Lent::new(most.entries, edge),
            dest_value: Lent::new(most.rules, edge),
            dest_length: Lent::new(most.rules, edge),
            source_value: Lent::new(most.rules, edge),
            source_length: Lent::new(most.rules, edge),
            action: Lent::new(most.rules, edge),
            scratch: Lent::new(words, edge),
            row_hop: Lent::new(rows, edge),
            row_length: Lent::new(rows, edge),
            row_link: Lent::new(rows, edge),
            row_stride: Lent::new(rows, edge),
            internal: Lent::new(most.supernodes, edge),
            external: Lent::new(most.supernodes, edge),
            first_child: Lent::new(most.supernodes, edge),
            first_hop: Lent::new(most.supernodes, edge),
            hop_row: Lent::new(most.entries, edge),
            tries: Lent::new(most.numbers, edge),
            address: Lent::new(most.addresses, edge),
            number: Lent::new(most.addresses, edge),
            best: Lent::new(most.addresses, edge),
            matched: Lent::new(most.addresses, edge),
            reads: Lent::new(most.addresses, edge),
        }
    }

    pub fn lend_table(&mut self, table: &Table, random: &mut Random) {
        lend(&mut self.value, &table.value, random);
        lend(&mut self.length, &table.length, random);
        lend(&mut self.hop, &table.hop, random);
    }

    pub fn lend_scratch(&mut self, scratch: &[u64], random: &mut Random) {
        lend(&mut self.scratch, scratch, random);
    }

    pub fn lend_rows(&mut self, rows: &Elements, random: &mut Random) {
        lend(&mut self.row_hop, &rows.hop, random);
        lend(&mut self.row_length, &rows.length, random);
        lend(&mut self.row_link, &rows.link, random);
        lend(&mut self.row_stride, &rows.stride, random);
    }

    pub fn lend_bitmap(&mut self, rows: &Supernodes, random: &mut Random) {
        lend(&mut self.internal, &rows.internal, random);
        lend(&mut self.external, &rows.external, random);
        lend(&mut self.first_child, &rows.first_child, random);
        lend(&mut self.first_hop, &rows.first_hop, random);
        lend(&mut self.hop_row, &rows.hop_row, random);
    }

    pub fn lend_rules(&mut self, rules: &Rules, random: &mut Random) {
        lend(&mut self.dest_value, &rules.dest_value, random);
        lend(&mut self.dest_length, &rules.dest_length, random);
        lend(&mut self.source_value, &rules.source_value, random);
        lend(&mut self.source_length, &rules.source_length, random);
        lend(&mut self.action, &rules.action, random);
    }

    pub fn lend_tries(&mut self, list: &[u32], random: &mut Random) {
        lend(&mut self.tries, list, random);
    }

    pub fn lend_addresses(&mut self, addresses: &[u32], random: &mut Random) {
        lend(&mut self.address, addresses, random);
    }

    pub fn lend_answers(&mut self, answers: &Answers, random: &mut Random) {
        lend(&mut self.number, &answers.number, random);
        lend(&mut self.best, &answers.hop, random);
        lend(&mut self.matched, &answers.length, random);
        lend(&mut self.reads, &answers.reads, random);
    }

    pub fn rows_are(&self, rows: &Elements) -> bool {
        (self.row_hop.held(), self.row_length.held()) == (&rows.hop, &rows.length)
            && (self.row_link.held(), self.row_stride.held()) == (&rows.link, &rows.stride)
    }

    // SAFETY of all calls below: each pointer is good for its length, or null with length 0; lists do not overlap.

    pub fn check(&self, width: u32, links: u16) -> raw::Checked {
        let (value, length, hop) = (&self.value, &self.length, &self.hop);
        unsafe {
            raw::hongsamuk_check(
                width,
                links,
                value.read(),
                value.len(),
                length.read(),
                length.len(),
                hop.read(),
                hop.len(),
            )
        }
    }

    pub fn zone_span(&self, width: u32, links: u16, prefix: u32, bits: u8) -> raw::Span {
        let (value, length, hop) = (&self.value, &self.length, &self.hop);
        unsafe {
            raw::hongsamuk_zone_span(
                width,
                links,
                value.read(),
                value.len(),
                length.read(),
                length.len(),
                hop.read(),
                hop.len(),
                prefix,
                bits,
            )
        }
    }

    pub fn choose(&mut self, kind: Kind, width: u32, levels: u32, links: u16) -> raw::Chosen {
        let call: raw::Choose = match kind {
            Kind::Fixed => raw::hongsamuk_choose_fixed,
            Kind::Variable => raw::hongsamuk_choose_variable,
        };
        unsafe {
            call(
                width,
                levels,
                links,
                self.value.read(),
                self.value.len(),
                self.length.read(),
                self.length.len(),
                self.hop.read(),
                self.hop.len(),
                self.scratch.write(),
                self.scratch.len(),
            )
        }
    }

    pub fn build(&mut self, kind: Kind, width: u32, levels: u32, links: u16) -> raw::Built {
        let call: raw::Build = match kind {
            Kind::Fixed => raw::hongsamuk_build_fixed,
            Kind::Variable => raw::hongsamuk_build_variable,
        };
        unsafe {
            call(
                width,
                levels,
                links,
                self.value.read(),
                self.value.len(),
                self.length.read(),
                self.length.len(),
                self.hop.read(),
                self.hop.len(),
                self.scratch.write(),
                self.scratch.len(),
                self.row_hop.write(),
                self.row_hop.len(),
                self.row_length.write(),
                self.row_length.len(),
                self.row_link.write(),
                self.row_link.len(),
                self.row_stride.write(),
                self.row_stride.len(),
            )
        }
    }

    pub fn lookup(&self, record: Record, address: u32) -> raw::Answer {
        unsafe {
            raw::hongsamuk_lookup(
                record,
                self.row_hop.read(),
                self.row_hop.len(),
                self.row_length.read(),
                self.row_length.len(),
                self.row_link.read(),
                self.row_link.len(),
                self.row_stride.read(),
                self.row_stride.len(),
                address,
            )
        }
    }

    pub fn build_bitmap(&mut self, width: u32, links: u16) -> raw::BuiltBitmap {
        unsafe {
            raw::hongsamuk_build_bitmap(
                width,
                links,
                self.value.read(),
                self.value.len(),
                self.length.read(),
                self.length.len(),
                self.hop.read(),
                self.hop.len(),
                self.scratch.write(),
                self.scratch.len(),
                self.internal.write(),
                self.internal.len(),
                self.external.write(),
                self.external.len(),
                self.first_child.write(),
                self.first_child.len(),
                self.first_hop.write(),
                self.first_hop.len(),
                self.hop_row.write(),
                self.hop_row.len(),
            )
        }
    }

    pub fn lookup_bitmap(&self, record: Bitmap, address: u32) -> raw::Answer {
        unsafe {
            raw::hongsamuk_lookup_bitmap(
                record,
                self.internal.read(),
                self.internal.len(),
                self.external.read(),
                self.external.len(),
                self.first_child.read(),
                self.first_child.len(),
                self.first_hop.read(),
                self.first_hop.len(),
                self.hop_row.read(),
                self.hop_row.len(),
                address,
            )
        }
    }

    pub fn build_rules(&mut self, kind: Kind, width: u32, levels: u32, links: u16) -> raw::BuiltRules {
        let call: raw::BuildRules = match kind {
            Kind::Fixed => raw::hongsamuk_build_rules_fixed,
            Kind::Variable => raw::hongsamuk_build_rules_variable,
        };
        unsafe {
            call(
                width,
                levels,
                links,
                self.dest_value.read(),
                self.dest_value.len(),
                self.dest_length.read(),
                self.dest_length.len(),
                self.source_value.read(),
                self.source_value.len(),
                self.source_length.read(),
                self.source_length.len(),
                self.action.read(),
                self.action.len(),
                self.scratch.write(),
                self.scratch.len(),
                self.row_hop.write(),
                self.row_hop.len(),
                self.row_length.write(),
                self.row_length.len(),
                self.row_link.write(),
                self.row_link.len(),
                self.row_stride.write(),
                self.row_stride.len(),
                self.tries.write(),
                self.tries.len(),
            )
        }
    }

    pub fn classify(&self, record: RuleRecord, dest: u32, source: u32) -> raw::Verdict {
        unsafe {
            raw::hongsamuk_classify(
                record,
                self.row_hop.read(),
                self.row_hop.len(),
                self.row_length.read(),
                self.row_length.len(),
                self.row_link.read(),
                self.row_link.len(),
                self.row_stride.read(),
                self.row_stride.len(),
                self.tries.read(),
                self.tries.len(),
                dest,
                source,
            )
        }
    }

    pub fn lookup_batch(&mut self, record: Record) -> usize {
        unsafe {
            raw::hongsamuk_lookup_batch(
                record,
                self.row_hop.read(),
                self.row_hop.len(),
                self.row_length.read(),
                self.row_length.len(),
                self.row_link.read(),
                self.row_link.len(),
                self.row_stride.read(),
                self.row_stride.len(),
                self.address.read(),
                self.address.len(),
                self.number.write(),
                self.number.len(),
                self.best.write(),
                self.best.len(),
                self.matched.write(),
                self.matched.len(),
                self.reads.write(),
                self.reads.len(),
            )
        }
    }
}

pub fn shared_length(width: u32, a: (u32, u8), b: (u32, u8)) -> raw::Shared {
    unsafe { raw::hongsamuk_shared_length(width, a.0, a.1, b.0, b.1) }
}
