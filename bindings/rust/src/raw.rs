//! The calls of `include/hongsamuk.h` as they are: pointers and lengths. A pointer must be good for its length, or the length 0.
//! The structures are laid out as in C; `tests/layout.rs` holds them to the table in the header's comment.

use crate::{Bitmap, Record, RuleRecord, LEVELS};

#[repr(C)]
#[derive(Clone, Copy, PartialEq, Eq, Debug, Default)]
pub struct Checked {
    pub number: u32,
    pub detail: u64,
}

#[repr(C)]
#[derive(Clone, Copy, PartialEq, Eq, Debug, Default)]
pub struct Shared {
    pub number: u32,
    pub bits: u32,
}

#[repr(C)]
#[derive(Clone, Copy, PartialEq, Eq, Debug, Default)]
pub struct Span {
    pub number: u32,
    pub detail: u64,
    pub index: u32,
    pub count: u32,
}

#[repr(C)]
#[derive(Clone, Copy, PartialEq, Eq, Debug, Default)]
pub struct Chosen {
    pub number: u32,
    pub detail: u64,
    pub cost: u64,
    pub strides: [u8; LEVELS],
}

#[repr(C)]
#[derive(Clone, Copy, PartialEq, Eq, Debug, Default)]
pub struct Built {
    pub number: u32,
    pub detail: u64,
    pub record: Record,
}

#[repr(C)]
#[derive(Clone, Copy, PartialEq, Eq, Debug, Default)]
pub struct BuiltBitmap {
    pub number: u32,
    pub detail: u64,
    pub record: Bitmap,
}

#[repr(C)]
#[derive(Clone, Copy, PartialEq, Eq, Debug, Default)]
pub struct BuiltRules {
    pub number: u32,
    pub detail: u64,
    pub record: RuleRecord,
}

#[repr(C)]
#[derive(Clone, Copy, PartialEq, Eq, Debug, Default)]
pub struct Answer {
    pub number: u32,
    pub hop: u16,
    pub length: u8,
    pub reads: u32,
}

#[repr(C)]
#[derive(Clone, Copy, PartialEq, Eq, Debug, Default)]
pub struct Verdict {
    pub number: u32,
    pub action: u16,
    pub reads: u32,
}

/// A build of either kind.
pub type Build = unsafe extern "C" fn(
    width: u32,
    levels: u32,
    links: u16,
    value: *const u32,
    values: usize,
    length: *const u8,
    lengths: usize,
    hop: *const u16,
    hops: usize,
    scratch: *mut u64,
    words: usize,
    row_hop: *mut u16,
    row_hops: usize,
    row_length: *mut u8,
    row_lengths: usize,
    row_link: *mut u32,
    row_links: usize,
    row_stride: *mut u8,
    row_strides: usize,
) -> Built;

/// A chooser of either kind.
pub type Choose = unsafe extern "C" fn(
    width: u32,
    levels: u32,
    links: u16,
    value: *const u32,
    values: usize,
    length: *const u8,
    lengths: usize,
    hop: *const u16,
    hops: usize,
    scratch: *mut u64,
    words: usize,
) -> Chosen;

/// A build of rules of either kind.
pub type BuildRules = unsafe extern "C" fn(
    width: u32,
    levels: u32,
    links: u16,
    dest_value: *const u32,
    dest_values: usize,
    dest_length: *const u8,
    dest_lengths: usize,
    source_value: *const u32,
    source_values: usize,
    source_length: *const u8,
    source_lengths: usize,
    action: *const u16,
    actions: usize,
    scratch: *mut u64,
    words: usize,
    row_hop: *mut u16,
    row_hops: usize,
    row_length: *mut u8,
    row_lengths: usize,
    row_link: *mut u32,
    row_links: usize,
    row_stride: *mut u8,
    row_strides: usize,
    list: *mut u32,
    numbers: usize,
) -> BuiltRules;

extern "C" {
    pub fn hongsamuk_check(
        width: u32,
        links: u16,
        value: *const u32,
        values: usize,
        length: *const u8,
        lengths: usize,
        hop: *const u16,
        hops: usize,
    ) -> Checked;

    pub fn hongsamuk_shared_length(width: u32, a: u32, a_bits: u8, b: u32, b_bits: u8) -> Shared;

    pub fn hongsamuk_zone_span(
        width: u32,
        links: u16,
        value: *const u32,
        values: usize,
        length: *const u8,
        lengths: usize,
        hop: *const u16,
        hops: usize,
        prefix: u32,
        bits: u8,
    ) -> Span;

    pub fn hongsamuk_choose_fixed(
        width: u32,
        levels: u32,
        links: u16,
        value: *const u32,
        values: usize,
        length: *const u8,
        lengths: usize,
        hop: *const u16,
        hops: usize,
        scratch: *mut u64,
        words: usize,
    ) -> Chosen;

    pub fn hongsamuk_choose_variable(
        width: u32,
        levels: u32,
        links: u16,
        value: *const u32,
        values: usize,
        length: *const u8,
        lengths: usize,
        hop: *const u16,
        hops: usize,
        scratch: *mut u64,
        words: usize,
    ) -> Chosen;

    pub fn hongsamuk_build_fixed(
        width: u32,
        levels: u32,
        links: u16,
        value: *const u32,
        values: usize,
        length: *const u8,
        lengths: usize,
        hop: *const u16,
        hops: usize,
        scratch: *mut u64,
        words: usize,
        row_hop: *mut u16,
        row_hops: usize,
        row_length: *mut u8,
        row_lengths: usize,
        row_link: *mut u32,
        row_links: usize,
        row_stride: *mut u8,
        row_strides: usize,
    ) -> Built;

    pub fn hongsamuk_build_variable(
        width: u32,
        levels: u32,
        links: u16,
        value: *const u32,
        values: usize,
        length: *const u8,
        lengths: usize,
        hop: *const u16,
        hops: usize,
        scratch: *mut u64,
        words: usize,
        row_hop: *mut u16,
        row_hops: usize,
        row_length: *mut u8,
        row_lengths: usize,
        row_link: *mut u32,
        row_links: usize,
        row_stride: *mut u8,
        row_strides: usize,
    ) -> Built;

    pub fn hongsamuk_lookup(
        record: Record,
        row_hop: *const u16,
        row_hops: usize,
        row_length: *const u8,
        row_lengths: usize,
        row_link: *const u32,
        row_links: usize,
        row_stride: *const u8,
        row_strides: usize,
        address: u32,
    ) -> Answer;

    pub fn hongsamuk_lookup_batch(
        record: Record,
        row_hop: *const u16,
        row_hops: usize,
        row_length: *const u8,
        row_lengths: usize,
        row_link: *const u32,
        row_links: usize,
        row_stride: *const u8,
        row_strides: usize,
        address: *const u32,
        addresses: usize,
        number: *mut u32,
        numbers: usize,
        hop: *mut u16,
        hops: usize,
        length: *mut u8,
        lengths: usize,
        reads: *mut u32,
        counts: usize,
    ) -> usize;

    pub fn hongsamuk_build_bitmap(
        width: u32,
        links: u16,
        value: *const u32,
        values: usize,
        length: *const u8,
        lengths: usize,
        hop: *const u16,
        hops: usize,
        scratch: *mut u64,
        words: usize,
        internal: *mut u16,
        internals: usize,
        external: *mut u16,
        externals: usize,
        first_child: *mut u32,
        first_children: usize,
        first_hop: *mut u32,
        first_hops: usize,
        hop_row: *mut u16,
        hop_rows: usize,
    ) -> BuiltBitmap;

    pub fn hongsamuk_lookup_bitmap(
        record: Bitmap,
        internal: *const u16,
        internals: usize,
        external: *const u16,
        externals: usize,
        first_child: *const u32,
        first_children: usize,
        first_hop: *const u32,
        first_hops: usize,
        hop_row: *const u16,
        hop_rows: usize,
        address: u32,
    ) -> Answer;

    pub fn hongsamuk_build_rules_fixed(
        width: u32,
        levels: u32,
        links: u16,
        dest_value: *const u32,
        dest_values: usize,
        dest_length: *const u8,
        dest_lengths: usize,
        source_value: *const u32,
        source_values: usize,
        source_length: *const u8,
        source_lengths: usize,
        action: *const u16,
        actions: usize,
        scratch: *mut u64,
        words: usize,
        row_hop: *mut u16,
        row_hops: usize,
        row_length: *mut u8,
        row_lengths: usize,
        row_link: *mut u32,
        row_links: usize,
        row_stride: *mut u8,
        row_strides: usize,
        list: *mut u32,
        numbers: usize,
    ) -> BuiltRules;

    pub fn hongsamuk_build_rules_variable(
        width: u32,
        levels: u32,
        links: u16,
        dest_value: *const u32,
        dest_values: usize,
        dest_length: *const u8,
        dest_lengths: usize,
        source_value: *const u32,
        source_values: usize,
        source_length: *const u8,
        source_lengths: usize,
        action: *const u16,
        actions: usize,
        scratch: *mut u64,
        words: usize,
        row_hop: *mut u16,
        row_hops: usize,
        row_length: *mut u8,
        row_lengths: usize,
        row_link: *mut u32,
        row_links: usize,
        row_stride: *mut u8,
        row_strides: usize,
        list: *mut u32,
        numbers: usize,
    ) -> BuiltRules;

    pub fn hongsamuk_classify(
        record: RuleRecord,
        row_hop: *const u16,
        row_hops: usize,
        row_length: *const u8,
        row_lengths: usize,
        row_link: *const u32,
        row_links: usize,
        row_stride: *const u8,
        row_strides: usize,
        list: *const u32,
        numbers: usize,
        dest: u32,
        source: u32,
    ) -> Verdict;
}
