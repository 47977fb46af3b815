//! Rules of two fields, destination and source: the build and the classification.

use crate::{outcome, raw, Kind, Outcome, Record, Rows, RowsMut, DISCARD};

/// What a classification answers. `reads` are the blocks read in all tries.
#[derive(Clone, Copy, PartialEq, Eq, Debug)]
pub enum Verdict {
    Act {
        action: u16,
        reads: u32,
    },
    /// The rule that wins discards.
    Discard {
        reads: u32,
    },
    /// No rule matches.
    NoRule {
        reads: u32,
    },
    Refused {
        number: u32,
    },
}

impl Verdict {
    /// The action of the rule that won, `DISCARD` for a discard; none where no rule matches, or the classification was refused.
    pub fn action(self) -> Option<u16> {
        match self {
            Verdict::Act { action, .. } => Some(action),
            Verdict::Discard { .. } => Some(DISCARD),
            Verdict::NoRule { .. } | Verdict::Refused { .. } => None,
        }
    }
}

impl From<raw::Verdict> for Verdict {
    #[inline]
    fn from(verdict: raw::Verdict) -> Verdict {
        match verdict {
            raw::Verdict { number: 0, action: 0, reads } => Verdict::NoRule { reads },
            raw::Verdict { number: 0, action: DISCARD, reads } => Verdict::Discard { reads },
            raw::Verdict { number: 0, action, reads } => Verdict::Act { action, reads },
            raw::Verdict { number, .. } => Verdict::Refused { number },
        }
    }
}

/// What a build of rules hands back beside its rows and its list; all of it is lent to each classification. Any numbers may stand in
/// it.
#[repr(C)]
#[derive(Clone, Copy, PartialEq, Eq, Debug, Default)]
pub struct RuleRecord {
    /// The destination trie's own; its floor and its rows' hops are numbers of source tries, not hops.
    pub dest: Record,
    /// The E of all tries: rows 0 to E - 1 are the build's.
    pub elements: u32,
}

/// Rules, lent: the width of both fields, the number of links, and value and length of the destination, value and length of the
/// source, and action of each. They rise by destination value, then destination length, source value and source length.
#[derive(Clone, Copy, PartialEq, Eq, Debug)]
pub struct Rules<'a> {
    pub width: u32,
    /// The number of links of the gateway: a rule's action is at most that, or [`DISCARD`]. With [`LINKS`](crate::LINKS) no action is
    /// refused but 0.
    pub links: u16,
    pub dest_value: &'a [u32],
    pub dest_length: &'a [u8],
    pub source_value: &'a [u32],
    pub source_length: &'a [u8],
    pub action: &'a [u16],
}

/// What a build of rules answers; refused, the record is all zeros.
#[derive(Clone, Copy, PartialEq, Eq, Debug)]
pub struct BuiltRules {
    pub outcome: Outcome,
    pub record: RuleRecord,
}

/// Turns rules into a record, the element rows of all tries and a list of source tries: tests 1 to 7, with rules for entries, where 6
/// counts the nodes and 7 the elements of all tries, and 7 then the whole rows of the list. A row of the list is floor, root stride,
/// place and E of a source trie, and the number of the trie to visit after it, 0 for none; trie n is row n - 1. Accepted, all of
/// scratch is 0, rows 0 to E - 1 and the rows of the list are the build's, and what comes after them is as it was. Refused by 7, all of
/// scratch is 0 and nothing else changes; refused by 1 to 6, no list changes. Lend it a row of the list for each rule: then the detail
/// of 7 is the number of elements needed.
pub fn build_rules(
    kind: Kind,
    levels: u32,
    rules: Rules,
    scratch: &mut [u64],
    rows: RowsMut,
    list: &mut [u32],
) -> BuiltRules {
    let call: raw::BuildRules = match kind {
        Kind::Fixed => raw::hongsamuk_build_rules_fixed,
        Kind::Variable => raw::hongsamuk_build_rules_variable,
    };
    let Rules { width, links, dest_value, dest_length, source_value, source_length, action } = rules;
    // SAFETY: pointers and lengths are those of slices; the call writes scratch, rows and list only, which nobody else borrows.
    let built = unsafe {
        call(
            width,
            levels,
            links,
            dest_value.as_ptr(),
            dest_value.len(),
            dest_length.as_ptr(),
            dest_length.len(),
            source_value.as_ptr(),
            source_value.len(),
            source_length.as_ptr(),
            source_length.len(),
            action.as_ptr(),
            action.len(),
            scratch.as_mut_ptr(),
            scratch.len(),
            rows.hop.as_mut_ptr(),
            rows.hop.len(),
            rows.length.as_mut_ptr(),
            rows.length.len(),
            rows.link.as_mut_ptr(),
            rows.link.len(),
            rows.stride.as_mut_ptr(),
            rows.stride.len(),
            list.as_mut_ptr(),
            list.len(),
        )
    };
    BuiltRules { outcome: outcome(built.number, built.detail), record: built.record }
}

/// Judges a packet by its two addresses: tests 1, 2, 8 (either address), 9. Over a record and lists that one accepted build left
/// together: to act as the rule that wins says, a discard where that rule discards, or no rule where none matches. Over any other,
/// damaged ones included, it answers too and never reads outside the lists: by what is found there, and by 9 where damage is met. The
/// floor of the destination record and the hops of the destinations' rows are numbers of source tries, not hops.
#[inline]
pub fn classify(record: &RuleRecord, rows: Rows, list: &[u32], dest: u32, source: u32) -> Verdict {
    // SAFETY: pointers and lengths are those of slices, which the call only reads.
    let verdict = unsafe {
        raw::hongsamuk_classify(
            *record,
            rows.hop.as_ptr(),
            rows.hop.len(),
            rows.length.as_ptr(),
            rows.length.len(),
            rows.link.as_ptr(),
            rows.link.len(),
            rows.stride.as_ptr(),
            rows.stride.len(),
            list.as_ptr(),
            list.len(),
            dest,
            source,
        )
    };
    verdict.into()
}
