//! The cases of the tablet's text. A case is the word `text` with the number of bytes, a line end, the bytes
//! themselves and a line end; its answer is the whole report and a line `end`.

mod linked;

use super::{any_levels, discards, links, Vectors};
use crate::random::Random;
use crate::table::{bits, Table, DISCARD, LINKS};
use crate::tablet::{self, SCRATCH_ROWS};
use std::collections::BTreeSet;

const WANTED: &[&str] = &[
    "refusal 0",
    "refusal 1",
    "refusal 2",
    "refusal 4",
    "refusal 5",
    "refusal 6",
    "refusal 7",
    "refusal 8",
    "refusal 11",
    "bad width line",
    "bad kind line",
    "bad levels line",
    "bad links line",
    "bad entries line",
    "bad bits line",
    "bad hop line",
    "bad queries line",
    "bad address line",
    "text after the end",
    "hop=65535 printed",
    "length=0 of the floor printed",
    "length=32 printed",
    "no line of links",
    "two lines of links",
    "links before levels",
    "links behind entries",
    "end in the line of links",
    "end behind the line of links",
];

fn text(vectors: &mut Vectors, text: &[u8]) {
    let report = tablet::run(text);
    let refusal = report.lines().next().and_then(|l| l.strip_prefix("refusal=")).expect("a report begins so");
    vectors.hit(&format!("refusal {refusal}"));
    linked::count(vectors, text, &report);
    let (hops, lengths) = (values(&report, "hop"), values(&report, "length"));
    if hops.iter().zip(&lengths).any(|(hop, length)| *hop != "0" && *length == "0") {
        vectors.hit("length=0 of the floor printed");
    }
    if lengths.contains(&"32") {
        vectors.hit("length=32 printed");
    }
    let mut line = format!("text {}\n", text.len()).into_bytes();
    line.extend(text);
    vectors.raw_case(&line, format!("{report}end"));
}

/// What a report's lines with a key say.
fn values<'a>(report: &'a str, key: &str) -> Vec<&'a str> {
    report.lines().filter_map(|line| line.strip_prefix(key)?.strip_prefix('=')).collect()
}

const WHOLE: &str = "width=3\nkind=vst\nlevels=2\nlinks=2\nentries=2\nbits=1\nhop=1\nbits=101\nhop=2\nqueries=3\naddress=101\naddress=111\naddress=011\n";

/// A text as its lines, so that one of them can be changed.
#[derive(Clone)]
struct Draft {
    lines: Vec<String>,
}

impl Draft {
    fn text(&self) -> Vec<u8> {
        self.lines.iter().flat_map(|l| l.bytes().chain([b'\n'])).collect()
    }

    fn key(&self, at: usize) -> &str {
        self.lines[at].split('=').next().unwrap()
    }

    /// The number of nodes: the proper starts of the entries.
    fn nodes(&self) -> usize {
        let bits = self.with("bits").into_iter().map(|at| &self.lines[at]["bits=".len()..]);
        bits.flat_map(|bits| (0..bits.len()).map(move |end| &bits[..end])).collect::<BTreeSet<_>>().len()
    }

    /// The lines with a key.
    fn with(&self, key: &str) -> Vec<usize> {
        (0..self.lines.len()).filter(|&i| self.key(i) == key).collect()
    }
}

#[derive(Clone, Copy)]
struct Sizes {
    width: u32,
    levels: u32,
    entries: usize,
    queries: usize,
}

/// A text of a sorted table, one in four with a number of links from its own hops, and addresses of the right number of digits.
fn draft(random: &mut Random, sizes: Sizes) -> Draft {
    let table = links::any(random, sizes.width, sizes.entries);
    let kind = if random.one_in(2) { "fst" } else { "vst" };
    let mut lines = vec![
        format!("width={}", sizes.width),
        format!("kind={kind}"),
        format!("levels={}", sizes.levels),
        format!("links={}", table.links),
        format!("entries={}", table.value.len()),
    ];
    for i in 0..table.value.len() {
        lines.push(format!("bits={}", table.entry(i)));
        lines.push(format!("hop={}", table.hop[i]));
    }
    lines.push(format!("queries={}", sizes.queries));
    for _ in 0..sizes.queries {
        let n = table.value.len() as u64;
        let address = if n > 0 && random.one_in(2) {
            let i = random.within(0, n - 1) as usize;
            random.relative(sizes.width, (table.value[i], table.length[i])).0
        } else {
            random.prefix(sizes.width, sizes.width, sizes.width).0
        };
        lines.push(format!("address={}", bits(sizes.width, address, sizes.width)));
    }
    Draft { lines }
}

/// The same, of a table for which the program's scratch rows are enough.
fn fitting(random: &mut Random, sizes: Sizes) -> Draft {
    loop {
        let made = draft(random, sizes);
        if made.nodes() <= SCRATCH_ROWS {
            return made;
        }
    }
}

fn any_draft(random: &mut Random) -> Draft {
    let sizes = Sizes {
        width: random.within(1, 32) as u32,
        levels: any_levels(random),
        entries: random.within(1, 8) as usize,
        queries: random.within(1, 6) as usize,
    };
    draft(random, sizes)
}

fn sound(vectors: &mut Vectors, random: &mut Random) {
    for width in 1..=32 {
        for turn in 0..4 {
            let entries = random.within(0, 10) as usize;
            let few = if width > 10 { 3 + turn } else { 1 + turn };
            let levels = if turn < 3 { few } else { random.within(9, 32) as u32 };
            let queries = random.within(0, 8) as usize;
            let made = fitting(random, Sizes { width, levels, entries, queries });
            text(vectors, &made.text());
        }
    }
    for width in [6, 7, 8] {
        let mut made = fitting(random, Sizes { width, levels: 3, entries: 64, queries: 64 });
        text(vectors, &made.text());
        made.lines[1] = if made.lines[1] == "kind=fst" { "kind=vst" } else { "kind=fst" }.to_string();
        text(vectors, &made.text());
    }
}

/// 01's own run, cut off at every byte, and with one byte more or another one.
fn cuts(vectors: &mut Vectors, random: &mut Random) {
    for end in 0..=WHOLE.len() {
        text(vectors, &WHOLE.as_bytes()[..end]);
    }
    for _ in 0..80 {
        let mut bytes = WHOLE.as_bytes().to_vec();
        let at = random.within(0, bytes.len() as u64 - 1) as usize;
        let byte = [b'\n', b'\r', b' ', b'=', b'0', b'1', b'9', 0, 200, b'A', b'+'][random.within(0, 10) as usize];
        match random.within(0, 2) {
            0 => bytes[at] = byte,
            1 => bytes.insert(at, byte),
            _ => drop(bytes.remove(at)),
        }
        text(vectors, &bytes);
    }
    for tail in
        ["\n", " ", "x", "\0", "=", "queries=0\n", "address=101\n", "width=3\n", "hop=1\n", "address=000", "\n\n\n"]
    {
        text(vectors, format!("{WHOLE}{tail}").as_bytes());
        vectors.hit("text after the end");
    }
    text(vectors, format!("\u{feff}{WHOLE}").as_bytes());
    text(vectors, WHOLE.replace('\n', "\r\n").as_bytes());
    text(vectors, WHOLE.replace('\n', "\n\n").as_bytes());
    text(vectors, WHOLE.repeat(200).as_bytes());
    text(vectors, "a".repeat(9000).as_bytes());
}

/// Values that a line with the key cannot have.
fn bad_values(key: &str) -> Vec<String> {
    let numbers =
        ["", "00", "01", "007", "+3", "-1", "3 ", " 3", "3x", "x", "0x3", "100000", "123456", "3\r", "3=3", "3.", "٣"];
    let long = "1".repeat(33);
    let mut values: Vec<String> = match key {
        "kind" => {
            ["", "FST", "Vst", "fst ", " fst", "vs", "vstx", "fpl", "0", "fst\r", "fst=vst"].map(String::from).to_vec()
        }
        "bits" => ["2", "01x", " 01", "01 ", "1=", "-", "*", "1\r", &long].map(String::from).to_vec(),
        "address" => ["", "2", "01x", " 01", "01 ", "1=", "1\r", &long].map(String::from).to_vec(),
        _ => numbers.map(String::from).to_vec(),
    };
    match key {
        "entries" | "queries" => values.extend(["65", "64000", "99999"].map(String::from)),
        "hop" | "links" => values.extend(["65536", "65537", "99999"].map(String::from)),
        _ => (),
    }
    values.push("1".repeat(1000));
    values
}

fn malformed(vectors: &mut Vectors, random: &mut Random) {
    for key in ["width", "kind", "levels", "links", "entries", "bits", "hop", "queries", "address"] {
        for value in bad_values(key) {
            let mut made = any_draft(random);
            let at = made.with(key);
            let at = at[random.within(0, at.len() as u64 - 1) as usize];
            made.lines[at] = format!("{key}={value}");
            bad_line(vectors, &made, at, key);
        }
        for line in [
            "",
            " ",
            "=",
            key,
            &key.to_uppercase(),
            &format!("{key} =1"),
            &format!(" {key}=1"),
            &format!("{key}:1"),
            &format!("{}=1", &key[1..]),
            "hops=1",
        ] {
            let mut made = any_draft(random);
            let at = made.with(key)[0];
            made.lines[at] = line.to_string();
            bad_line(vectors, &made, at, key);
        }
    }
}

fn bad_line(vectors: &mut Vectors, made: &Draft, at: usize, key: &str) {
    let report = tablet::run(&made.text());
    assert!(report == format!("refusal=11\ndetail={}\n", at + 1), "line {} of {:?}: {report}", at + 1, made.lines);
    vectors.hit(&format!("bad {key} line"));
    text(vectors, &made.text());
}

/// Lines left out, doubled or exchanged, and counts that are one off.
fn order(vectors: &mut Vectors, random: &mut Random) {
    for turn in 0..80 {
        let mut made = any_draft(random);
        let n = made.lines.len();
        let at = random.within(0, n as u64 - 1) as usize;
        match turn % 5 {
            0 => drop(made.lines.remove(at)),
            1 => made.lines.insert(at, made.lines[at].clone()),
            2 => made.lines.swap(at.max(1) - 1, at.max(1)),
            _ => {
                let key = if turn % 5 == 3 { "entries" } else { "queries" };
                let at = made.with(key)[0];
                let count: u32 = made.lines[at].split('=').nth(1).unwrap().parse().unwrap();
                let other = if random.one_in(2) { count + 1 } else { count.saturating_sub(1) };
                made.lines[at] = format!("{key}={other}");
            }
        }
        text(vectors, &made.text());
    }
}

/// A fault of the build or of an address, some with a second one of another number.
fn faults(vectors: &mut Vectors, random: &mut Random) {
    for turn in 0..220 {
        let mut made = any_draft(random);
        fault(random, &mut made, turn % FAULTS);
        if random.one_in(3) {
            let other = random.within(0, FAULTS - 1);
            fault(random, &mut made, other);
        }
        text(vectors, &made.text());
    }
    for width in [13, 14, 16, 24, 25, 31, 32] {
        for kind in ["fst", "vst"] {
            let text_of = |levels| {
                let ones = "1".repeat(width);
                format!("width={width}\nkind={kind}\nlevels={levels}\nlinks=9\nentries=1\nbits={ones}\nhop=9\nqueries=2\naddress={ones}\naddress=0\n")
            };
            for levels in [1, 8, 32, 33] {
                text(vectors, text_of(levels).as_bytes());
            }
        }
    }
    for _ in 0..14 {
        let made = draft(random, Sizes { width: 32, levels: 8, entries: 64, queries: 1 });
        text(vectors, &made.text());
    }
}

/// How many kinds of fault `fault` knows.
const FAULTS: u64 = 11;

fn fault(random: &mut Random, made: &mut Draft, kind: u64) {
    let one_of = |random: &mut Random, lines: &[usize]| lines[random.within(0, lines.len() as u64 - 1) as usize];
    let (all_bits, hops, addresses) = (made.with("bits"), made.with("hop"), made.with("address"));
    match kind {
        0 => {
            made.lines[0] =
                format!("width={}", [0, 33, 34, 259, 288, 65535, 65537, 65568, 99999][random.within(0, 8) as usize])
        }
        1 => {
            made.lines[2] =
                format!("levels={}", [0, 33, 34, 257, 288, 65537, 65568, 99999][random.within(0, 7) as usize])
        }
        2 => {
            let at = one_of(random, &all_bits);
            made.lines[at] = format!("bits={}", "01".repeat(16));
        }
        3 => made.lines[one_of(random, &hops)] = "hop=0".to_string(),
        4 | 5 => {
            let (a, b) = (one_of(random, &all_bits), one_of(random, &all_bits));
            if kind == 4 {
                made.lines.swap(a, b);
            } else {
                made.lines[b] = made.lines[a].clone();
            }
        }
        6 | 7 => {
            let at = one_of(random, &addresses);
            made.lines[at] = format!("address={}", "1".repeat(random.within(1, 32) as usize));
        }
        8 => made.lines[0] = format!("width={}", random.within(1, 32)),
        9 => {
            let numbers: Vec<u16> = hops.iter().map(|at| made.lines[*at]["hop=".len()..].parse().unwrap()).collect();
            made.lines[3] = format!("links={}", random.too_few_links(&numbers));
        }
        _ => made.lines[2] = "levels=1".to_string(),
    }
}

/// A text of these entries' bits, each with a hop of five digits, the first that of a discard, with the most links, and these
/// addresses.
fn text_of(head: [&str; 3], bits: &[String], addresses: &[String]) -> String {
    let [width, kind, levels] = head;
    let mut lines = format!("width={width}\nkind={kind}\nlevels={levels}\nlinks={LINKS}\nentries={}\n", bits.len());
    for (i, b) in bits.iter().enumerate() {
        lines += &format!("bits={b}\nhop={}\n", 65535 - i);
    }
    lines += &format!("queries={}\n", addresses.len());
    for a in addresses {
        lines += &format!("address={a}\n");
    }
    lines
}

/// Entries of at most 32 bits, in order, with so many nodes: paths that part in their first four bits, the last cut off.
fn with_nodes(nodes: usize) -> Vec<String> {
    let mut starts = BTreeSet::new();
    let mut entries = vec![];
    while starts.len() < nodes {
        let path = format!("{:04b}{}", entries.len(), "1".repeat(28));
        let mut end = 0;
        while end < 32 && (starts.len() < nodes || starts.contains(&path[..end])) {
            starts.insert(path[..end].to_string());
            end += 1;
        }
        entries.push(path[..end].to_string());
    }
    entries
}

/// 02: "the tablet lends 112 scratch rows, not 320"; 01: "and 8,192 elements". E is even, so that after 8,192 comes 8,194.
fn lent(vectors: &mut Vectors) {
    let zeros = |n: usize| "0".repeat(n);
    for kind in ["fst", "vst"] {
        for nodes in [111, 112, 113] {
            let entries = with_nodes(nodes);
            let address = ["1".repeat(32), entries[2].clone()];
            let report = lent_case(vectors, &text_of(["32", kind, "8"], &entries, &address));
            let refused = "refusal=6\ndetail=113\n";
            assert!(
                if nodes <= 112 { report.starts_with("refusal=0\n") } else { report == refused },
                "{nodes}: {report}"
            );
            // An address of another width does not count before the build is accepted.
            let wrong = lent_case(vectors, &text_of(["32", kind, "8"], &entries, &["1".to_string()]));
            assert!(if nodes <= 112 { wrong == "refusal=8\ndetail=0\n" } else { wrong == refused }, "{wrong}");
        }
        for (width, levels) in [(13, "1"), (24, "2")] {
            let text = text_of([&width.to_string(), kind, levels], &[zeros(width)], &[zeros(width)]);
            assert!(lent_case(vectors, &text).contains("elements=8192\n"));
        }
    }
    let two = [zeros(24), format!("1{}", zeros(12))];
    let report = lent_case(vectors, &text_of(["24", "vst", "2"], &two, &[zeros(24)]));
    assert!(report == "refusal=7\ndetail=8194\n", "{report}");
}

/// Prefixes of one address, one of each length: with 32 levels that address reads 32 blocks; 33 levels are refused.
fn levels(vectors: &mut Vectors) {
    let address = "10".repeat(16);
    let bits: Vec<String> = (1..=32).map(|length| address[..length].to_string()).collect();
    let addresses = [address.clone(), format!("{}1", &address[..31]), format!("{}0", &address[..31]), "0".repeat(32)];
    for kind in ["fst", "vst"] {
        for (levels, wanted) in [
            ("8", "reads=8\n"),
            ("9", "reads=9\n"),
            ("31", "reads=31\n"),
            ("32", "reads=32\n"),
            ("33", "refusal=2\ndetail=0\n"),
        ] {
            let report = lent_case(vectors, &text_of(["32", kind, levels], &bits, &addresses));
            assert!(report.contains(wanted), "{levels}: {report}");
        }
    }
}

/// The text of a table, an entry longer than the width included, and of these addresses.
fn table_text(made: &Table, kind: &str, levels: u32, addresses: &[u32]) -> String {
    let Table { width, links, .. } = made;
    let mut lines = format!("width={width}\nkind={kind}\nlevels={levels}\nlinks={links}\nentries={}\n", made.hop.len());
    for i in 0..made.hop.len() {
        let length = made.length[i] as usize;
        let entry = bits(*width, made.value[i], (length as u32).min(*width));
        lines += &format!("bits={entry:0<length$}\nhop={}\n", made.hop[i]);
    }
    lines += &format!("queries={}\n", addresses.len());
    addresses.iter().for_each(|address| lines += &format!("address={}\n", bits(*width, *address, *width)));
    lines
}

/// Tables with discards, by both kinds, with 1 to W + 1 levels and the most, asked at all addresses: hop=65535 is
/// printed where the longest entry discards, and nowhere else, and behind each hop the length of that entry.
fn discarding(vectors: &mut Vectors) {
    for made in discards() {
        let all: Vec<u32> = (0..1 << made.width).collect();
        let discarded = all.iter().filter(|address| made.answer(**address).0 == DISCARD).count();
        let matched: Vec<String> = all.iter().map(|address| made.answer(*address).1.to_string()).collect();
        for (kind, levels) in (1..=made.width + 1).chain([31, 32]).flat_map(|levels| [("fst", levels), ("vst", levels)])
        {
            let report = lent_case(vectors, &table_text(&made, kind, levels, &all));
            assert!(discarded > 0 && report.matches("hop=65535\n").count() == discarded, "{report}");
            assert!(values(&report, "length") == matched, "{report}");
            vectors.hit("hop=65535 printed");
        }
    }
}

fn lent_case(vectors: &mut Vectors, given: &str) -> String {
    text(vectors, given.as_bytes());
    tablet::run(given.as_bytes())
}

/// 64 entries and 64 queries of 32 bits: the longest text with these first three lines. The entries share their first 26 bits:
/// 89 nodes.
fn longest(head: [&str; 3]) -> String {
    let bits: Vec<String> = (0..64).map(|i| format!("{}{i:06b}", "10".repeat(13))).collect();
    let lead = |i| "10".repeat(if i % 4 == 3 { 12 } else { 13 });
    let addresses: Vec<String> = (0..64).map(|i| format!("{:0<32}", format!("{}{i:06b}", lead(i)))).collect();
    text_of(head, &bits, &addresses)
}

/// Every text under examples/: its report there is what the reference prints. One is the longest that is accepted: its width and its
/// level limit have two digits.
fn shown(vectors: &mut Vectors, top: &str) {
    let accepted = longest(["32", "vst", "32"]);
    assert!(accepted.len() == 5758 && tablet::run(accepted.as_bytes()).starts_with("refusal=0\n"));
    let there = std::fs::read(format!("{top}/examples/longest-accepted.txt")).expect("an example can be read");
    assert!(there == accepted.as_bytes(), "longest-accepted.txt is another text");
    let folder = std::fs::read_dir(format!("{top}/examples")).expect("examples/ can be read");
    let mut paths: Vec<_> = folder.map(|f| f.expect("examples/ can be read").path()).collect();
    paths.sort();
    for path in paths.iter().filter(|p| p.extension().is_some_and(|e| e == "txt")) {
        let given = std::fs::read(path).expect("an example can be read");
        let report = std::fs::read_to_string(path.with_extension("report")).expect("an example has a report");
        assert!(report == tablet::run(&given), "{}: its report is another", path.display());
        text(vectors, &given);
    }
}

/// The tablet's own run in the gate: a text of the greatest length that a good one can have. Its width has five digits, so the
/// build refuses it; the longest text that is accepted stands in examples/.
fn write_tablet(top: &str) {
    let given = longest(["99999", "vst", "99999"]);
    let report = tablet::run(given.as_bytes());
    assert!(given.len() == 5764 && report == "refusal=1\ndetail=0\n", "{report}");
    std::fs::write(format!("{top}/crates/tablet/stdin"), &given).expect("stdin can be written");
    std::fs::write(format!("{top}/crates/tablet/stdout"), &report).expect("stdout can be written");
}

pub fn write(top: &str) {
    let mut vectors = Vectors::default();
    let mut random = Random::new(6);
    text(&mut vectors, WHOLE.as_bytes());
    text(&mut vectors, b"");
    sound(&mut vectors, &mut random);
    cuts(&mut vectors, &mut random);
    malformed(&mut vectors, &mut random);
    order(&mut vectors, &mut random);
    faults(&mut vectors, &mut random);
    discarding(&mut vectors);
    linked::hops(&mut vectors);
    linked::places(&mut vectors, &mut random);
    lent(&mut vectors);
    levels(&mut vectors);
    shown(&mut vectors, top);
    text(&mut vectors, longest(["99999", "fst", "99999"]).as_bytes());
    text(&mut vectors, longest(["32", "fst", "32"]).as_bytes());
    write_tablet(top);
    vectors.write(top, "sheet_cases", WANTED, &["text"]);
}
