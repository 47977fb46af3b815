//! The layout of each struct that goes over the C calls, in three copies: the header's, this crate's, and the proved code's. Each is
//! held to the one table of numbers in the header's comment. And the limits, which the header and this crate both name.

use hongsamuk::{raw, Bitmap, Record, RuleRecord};
use std::collections::BTreeMap;
use std::mem::{offset_of, size_of};
use std::path::Path;

/// Where each field begins, and last the size, under the name `size`.
type Layout = Vec<(String, usize)>;

const HEADER: &str = include_str!("../../../include/hongsamuk.h");

/// The header's name of a struct, and the proved code's.
const NAMES: [(&str, &str); 12] = [
    ("hongsamuk_record", "Record"),
    ("hongsamuk_bitmap", "Bitmap"),
    ("hongsamuk_rule_record", "RuleRecord"),
    ("hongsamuk_checked", "Checked"),
    ("hongsamuk_shared", "SharedNumbers"),
    ("hongsamuk_span", "SpanNumbers"),
    ("hongsamuk_chosen", "ChosenNumbers"),
    ("hongsamuk_built", "BuiltNumbers"),
    ("hongsamuk_built_bitmap", "BuiltBitmapNumbers"),
    ("hongsamuk_built_rules", "BuiltRulesNumbers"),
    ("hongsamuk_answer", "AnswerNumbers"),
    ("hongsamuk_verdict", "VerdictNumbers"),
];

fn place(word: &str) -> (String, usize) {
    let (name, number) = word.trim().split_once(' ').expect("a field and its place");
    (name.to_string(), number.trim().parse().expect("a number"))
}

/// The lines of the header's comment that begin with a struct's name.
fn stated() -> BTreeMap<&'static str, Layout> {
    let line = |line: &'static str| {
        let (name, places) = line.strip_prefix(" *    ")?.split_once(' ')?;
        name.starts_with("hongsamuk_").then(|| (name, places.split(',').map(place).collect()))
    };
    HEADER.lines().filter_map(line).collect()
}

macro_rules! layout {
    ($type:ty: $($field:ident),+) => {
        vec![$((stringify!($field).to_string(), offset_of!($type, $field))),+, ("size".to_string(), size_of::<$type>())]
    };
}

fn of_this_crate() -> BTreeMap<&'static str, Layout> {
    BTreeMap::from([
        ("hongsamuk_record", layout!(Record: width, levels, elements, floor, strides)),
        ("hongsamuk_bitmap", layout!(Bitmap: width, supernodes, hops)),
        ("hongsamuk_rule_record", layout!(RuleRecord: dest, elements)),
        ("hongsamuk_checked", layout!(raw::Checked: number, detail)),
        ("hongsamuk_shared", layout!(raw::Shared: number, bits)),
        ("hongsamuk_span", layout!(raw::Span: number, detail, index, count)),
        ("hongsamuk_chosen", layout!(raw::Chosen: number, detail, cost, strides)),
        ("hongsamuk_built", layout!(raw::Built: number, detail, record)),
        ("hongsamuk_built_bitmap", layout!(raw::BuiltBitmap: number, detail, record)),
        ("hongsamuk_built_rules", layout!(raw::BuiltRules: number, detail, record)),
        ("hongsamuk_answer", layout!(raw::Answer: number, hop, length, reads)),
        ("hongsamuk_verdict", layout!(raw::Verdict: number, action, reads)),
    ])
}

/// All code of a proved crate.
fn code(name: &str) -> String {
    let folder = Path::new(env!("CARGO_MANIFEST_DIR")).join("../../crates").join(name).join("src");
    let file = |entry: std::io::Result<std::fs::DirEntry>| std::fs::read_to_string(entry.unwrap().path()).unwrap();
    std::fs::read_dir(folder).expect("the crate's code").map(file).collect()
}

/// A field's size and alignment, by its type as the proved code writes it.
fn room(kind: &str) -> (usize, usize) {
    match kind {
        "u8" => (1, 1),
        "u16" => (2, 2),
        "u32" => (4, 4),
        "u64" => (8, 8),
        "Record" => (size_of::<Record>(), 4),
        "Bitmap" => (size_of::<Bitmap>(), 4),
        "RuleRecord" => (size_of::<RuleRecord>(), 4),
        _ if kind.starts_with("[u8; ") && kind.ends_with("LEVELS as usize]") => (hongsamuk::LEVELS, 1),
        _ => panic!("a type without a room: {kind}"),
    }
}

/// C's rule: each field at the next place that its alignment allows, and the size a multiple of the largest alignment.
fn by_the_rule(fields: &[(String, String)]) -> Layout {
    let (mut at, mut most, mut layout) = (0usize, 1, Layout::new());
    for (name, kind) in fields {
        let (size, align) = room(kind);
        at = at.next_multiple_of(align);
        layout.push((name.clone(), at));
        (at, most) = (at + size, most.max(align));
    }
    layout.push(("size".to_string(), at.next_multiple_of(most)));
    layout
}

/// The fields of a struct of the proved code that is laid out as in C, and their types.
fn fields(code: &str, name: &str) -> Vec<(String, String)> {
    let head = format!("#[repr(C)]\npub struct {name} {{\n");
    let (_, after) = code.split_once(&head).unwrap_or_else(|| panic!("no struct {name} as in C"));
    let (body, _) = after.split_once('}').expect("the struct's end");
    let field = |line: &str| {
        let (name, kind) = line.trim().strip_prefix("pub ")?.strip_suffix(',')?.split_once(": ")?;
        Some((name.to_string(), kind.to_string()))
    };
    body.lines().map(|line| field(line).expect("a field")).collect()
}

#[test]
fn the_table_names_every_struct() {
    let declared = HEADER.matches("typedef struct ").count();
    assert_eq!((stated().len(), declared), (NAMES.len(), NAMES.len()));
}

#[test]
fn this_crate() {
    assert_eq!(of_this_crate(), stated());
}

#[test]
fn the_proved_code() {
    let code = code("walk") + &code("visits") + &code("verdicts") + &code("gateway");
    assert_eq!(code.matches("#[repr(C)]").count(), NAMES.len());
    let layouts = NAMES.map(|(header, own)| (header, by_the_rule(&fields(&code, own))));
    assert_eq!(BTreeMap::from(layouts), stated());
}

#[test]
fn the_headers_asserts() {
    for (name, layout) in stated() {
        for (field, at) in &layout {
            let line = match field.as_str() {
                "size" => format!("HONGSAMUK_SIZE({name}, {at});"),
                _ => format!("HONGSAMUK_AT({name}, {field}, {at});"),
            };
            assert!(HEADER.lines().any(|l| l == line), "no assert {line}");
        }
    }
    let stated: usize = stated().values().map(Vec::len).sum();
    let holds = |word: &str| HEADER.lines().filter(|line| line.starts_with(word)).count();
    assert_eq!(holds("HONGSAMUK_AT(") + holds("HONGSAMUK_SIZE("), stated);
}

#[test]
fn the_headers_limits() {
    let own = [
        ("WIDTH", hongsamuk::WIDTH as usize),
        ("LEVELS", hongsamuk::LEVELS),
        ("ENTRIES", hongsamuk::ENTRIES),
        ("DISCARD", hongsamuk::DISCARD as usize),
        ("LINKS", hongsamuk::LINKS as usize),
        ("ELEMENTS", hongsamuk::ELEMENTS as usize),
        ("ROW", hongsamuk::SCRATCH_ROW),
        ("NODE_ROW", hongsamuk::NODE_ROW),
        ("RULES", hongsamuk::RULES),
        ("TRIE_ROW", hongsamuk::TRIE_ROW),
        ("VISITS", hongsamuk::VISITS as usize),
    ];
    let limit = |line: &str| {
        let (name, number) = line.strip_prefix("    HONGSAMUK_")?.split_once(" = ")?;
        let digits: String = number.chars().take_while(char::is_ascii_digit).collect();
        Some((name.to_string(), digits.parse().expect("a number")))
    };
    let stated: Vec<(String, usize)> = HEADER.lines().filter_map(limit).collect();
    assert_eq!(stated, own.map(|(name, number)| (name.to_string(), number)));
}
