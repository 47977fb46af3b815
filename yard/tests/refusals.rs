//! What is wrong, in words: bad files and bad commands by line, refusals by number, reports that are none. Each is one line on standard
//! error with status 1, and nothing is written.

mod common;

use std::ffi::OsStr;
use std::fs::{self, File};
use std::os::unix::ffi::OsStrExt;
use std::os::unix::fs::symlink;
use std::path::Path;
use std::process::Command;

use common::*;

const GOOD: &str = "10.0.0.0/8 3\n10.20.0.0/16 discard\n";

/// Each command that reads a table says the same of it; no picture is written.
fn complaints(name: &str, text: impl AsRef<[u8]>) -> String {
    let folder = Folder::new(name);
    let table = folder.file("t.routes", text);
    let svg = folder.unwritten("picture.svg");
    let said = complaint(&["lookup", &table, "10.0.0.1"]);
    assert_eq!(complaint(&["sheet", &table, "10.0.0.1"]), said);
    for command in [["compare", &table, "--svg", &svg], ["draw", &table, "--svg", &svg]] {
        assert_eq!(complaint(&command), said);
    }
    assert!(!Path::new(&svg).exists(), "{name}: a picture");
    said.replace(&table, "FILE")
}

#[test]
fn bad_files_by_line() {
    let bad: [(&str, &[u8], &str); 16] = [
        (
            "bits",
            b"10.0.0.0/8 3\n10.20.0.1/16 4\n",
            "FILE, line 2: '10.20.0.1/16' has bits past its length: its first 16 bits are 10.20.0.0/16",
        ),
        ("length", b"\n\n10.0.0.0/33 3\n", "FILE, line 3: the length of '10.0.0.0/33': 33 is above 32"),
        (
            "twice",
            b"10.0.0.0/8 3\n11.0.0.0/8 3\n10.0.0.0/8 3\n",
            "FILE, line 3: 10.0.0.0/8 stands twice, first in line 1",
        ),
        ("other-hop", b"0.0.0.0/0 3\n0.0.0.0/0 discard", "FILE, line 2: 0.0.0.0/0 stands twice, first in line 1"),
        ("first", b"10.0.0.0/40 3\n10.20.0.1/16 4\n", "FILE, line 1: the length of '10.0.0.0/40': 40 is above 32"),
        ("no-length", b"10.0.0.0 3\n", "FILE, line 1: '10.0.0.0' has no length: write a prefix as 10.20.0.0/16"),
        ("bad-length", b"10.0.0.0/x 3\n", "FILE, line 1: the length of '10.0.0.0/x': 'x' is no number in digits without a leading zero"),
        (
            "bad-address",
            b"10.0.0/8 3\n",
            "FILE, line 1: '10.0.0' is no address: write four numbers from 0 to 255, as 10.20.30.40",
        ),
        ("no-hop", b"# a\n10.0.0.0/8 # 3\n", "FILE, line 2: 10.0.0.0/8 has no hop"),
        ("bad-hop", b"10.0.0.0/8 drop\n", "FILE, line 1: 'drop' is no hop: write the number of a link, or discard"),
        ("hop-above", b"10.0.0.0/8 65536\n", "FILE, line 1: '65536' is no hop: write the number of a link, or discard"),
        ("three", b"10.0.0.0/8 3 4\n", "FILE, line 1: this is more than a prefix and a hop"),
        (
            "long",
            &[b'1'; 5000],
            "FILE, line 1: '1111111111111111111111111111111111111111..' has no length: write a prefix as 10.20.0.0/16",
        ),
        (
            "escaped-length",
            b"10.0.0.0/\x1b[31m 3\n",
            "FILE, line 1: the length of '10.0.0.0/\\u{1b}[31m': '\\u{1b}[31m' is no number in digits without a leading zero",
        ),
        ("no-text", b"10.0.0.0/8 3\n\xff\xfe 3\n", "FILE, line 2: this is no text"),
        (
            "escape",
            b"\x1b[31m/8 3\n",
            "FILE, line 1: '\\u{1b}[31m' is no address: write four numbers from 0 to 255, as 10.20.30.40",
        ),
    ];
    for (name, text, expected) in bad {
        assert_eq!(complaints(name, text), expected, "{name}");
    }
}

#[test]
fn files_that_cannot_be_read_or_written() {
    let folder = Folder::new("no-file");
    let (table, none, svg) =
        (folder.file("t.routes", GOOD), folder.unwritten("none.routes"), folder.unwritten("p.svg"));
    let here = folder.unwritten("");
    for file in [none.as_str(), here.as_str(), ""] {
        for command in
            [vec!["lookup", file, "10.0.0.1"], vec!["compare", file, "--svg", &svg], vec!["draw", file, "--svg", &svg]]
        {
            assert!(complaint(&command).contains(": cannot be read: "), "{command:?}");
        }
        assert!(complaint(&["sheet", file, "10.0.0.1"]).contains(": cannot be read: "));
        assert!(complaint(&["read", file]).contains(": cannot be read: "));
    }
    assert!(!Path::new(&svg).exists());
    let nowhere = folder.unwritten("no-folder/p.svg");
    for command in [["compare", &table, "--svg", &nowhere], ["draw", &table, "--svg", &nowhere]] {
        assert!(complaint(&command).contains(": cannot be written: "), "{command:?}");
    }
}

#[test]
fn bad_commands() {
    let folder = Folder::new("commands");
    let table = &folder.file("t.routes", GOOD);
    let svg = &folder.unwritten("p.svg");
    let bad: [(&[&str], &str); 27] = [
        (&[], "no command: lookup, compare, draw, sheet or read (yard help says more)"),
        (&["look"], "no command is called 'look': lookup, compare, draw, sheet or read (yard help says more)"),
        (&["lookup"], "lookup: no file of a table is named"),
        (&["compare"], "compare: no file of a table is named"),
        (&["draw", "--svg", svg], "draw: no file of a table is named"),
        (&["sheet"], "sheet: no file of a table is named"),
        (&["read"], "read: no file of a report is named"),
        (&["lookup", table], "lookup: no address is asked for"),
        (&["sheet", table], "sheet: no address is asked for"),
        (
            &["lookup", table, "10.0.0.1", "10.0.0"],
            "'10.0.0' is no address: write four numbers from 0 to 255, as 10.20.30.40",
        ),
        (&["draw", table], "draw: no file for the picture is named: say --svg FILE"),
        (&["draw", table, "10.0.0.1", "10.0.0.2", "--svg", svg], "draw: '10.0.0.2' is one word too many"),
        (&["compare", table, "10.0.0.1", "--svg", svg], "compare: '10.0.0.1' is one word too many"),
        (&["read", table, "more"], "read: 'more' is one word too many"),
        (&["lookup", table, "10.0.0.1", "--svg", svg], "lookup: it takes no option --svg (yard help says more)"),
        (&["compare", table, "--levels", "3"], "compare: it takes no option --levels (yard help says more)"),
        (&["lookup", table, "10.0.0.1", "--levels"], "lookup: --levels has no value"),
        (&["draw", table, "--svg", "--levels"], "draw: --svg has no value"),
        (&["draw", table, "--svg", "-"], "draw: a picture goes to a file: - is none"),
        (&["draw", table, "--svg", svg, "--kind", "bitmap"], "draw: a bitmap has no blocks: say --kind fst or vst"),
        (
            &["draw", table, "--svg", svg, "--kind", "bitmap", "--levels", "3"],
            "draw: a bitmap has no blocks: say --kind fst or vst",
        ),
        (&["sheet", table, "10.0.0.1", "--kind", "bitmap"], "sheet: the tablet knows no bitmap: say --kind fst or vst"),
        (&["lookup", table, "10.0.0.1", "--levels", "3", "--levels=3"], "lookup: --levels stands twice"),
        (
            &["lookup", table, "10.0.0.1", "--levels", "many"],
            "lookup: --levels: 'many' is no number in digits without a leading zero",
        ),
        (&["lookup", table, "10.0.0.1", "--links", "65536"], "lookup: --links: 65536 is above 65,535"),
        (&["lookup", table, "10.0.0.1", "--kind", "trie"], "lookup: 'trie' is no kind: fst, vst or bitmap"),
        (
            &["lookup", table, "10.0.0.1", "--kind", "bitmap", "--levels", "3"],
            "lookup: a bitmap has no levels: leave --levels out",
        ),
    ];
    for (command, expected) in bad {
        assert_eq!(complaint(command).replace(table, "FILE"), expected, "{command:?}");
    }
    assert!(!Path::new(svg).exists());
}

/// By whatever name the table goes.
#[test]
fn no_picture_over_a_table() {
    let folder = Folder::new("over");
    let table = &folder.file("t.routes", GOOD);
    let (hard, soft) = (&folder.unwritten("hard.svg"), &folder.unwritten("soft.svg"));
    fs::hard_link(table, hard).expect("a hard link");
    symlink(table, soft).expect("a link");
    for svg in [table, hard, soft, &table.replace("t.routes", "./t.routes")] {
        for command in [["draw", table, "--svg", svg], ["compare", table, "--svg", svg]] {
            assert!(complaint(&command).ends_with(": the picture would be written over the table"), "{command:?}");
        }
    }
    let input = File::open(table).expect("the table");
    let mut yard = Command::new(env!("CARGO_BIN_EXE_yard"));
    let output = yard.args(["draw", "-", "--svg", table]).stdin(input).output().expect("the program runs");
    assert_eq!(output.stderr, b"yard: draw: the picture would be written over the table\n");
    assert_eq!(fs::read_to_string(table).expect("the table"), GOOD);
}

#[test]
fn what_cannot_be_said_or_heard() {
    let table = example("brakes.routes");
    for command in [vec!["lookup", &table, "10.0.0.1"], vec!["compare", &table], vec!["help"]] {
        let full = File::options().write(true).open("/dev/full").expect("a full device");
        let mut yard = Command::new(env!("CARGO_BIN_EXE_yard"));
        let output = yard.args(&command).stdout(full).output().expect("the program runs");
        let complaint = String::from_utf8(output.stderr).expect("text");
        assert!(complaint.starts_with("yard: standard output cannot be written: "), "{complaint}");
        assert_eq!((output.status.code(), complaint.lines().count()), (Some(1), 1), "{command:?}");
    }
    assert_eq!(complaint(&["lookup", "-", "10.0.0.1"]), "standard input: cannot be read: there is nothing");
    let mut yard = Command::new(env!("CARGO_BIN_EXE_yard"));
    let output = yard.arg("lookup").arg(OsStr::from_bytes(b"\xff.routes")).output().expect("the program runs");
    assert_eq!((output.status.code(), output.stderr), (Some(1), b"yard: a word of the command is no text\n".to_vec()));
}

#[test]
fn refusals_of_a_build() {
    let folder = Folder::new("refusals");
    let table = &folder.file("t.routes", "# links\n10.20.30.40/32 9\n10.0.0.0/8 3\n");
    let say = |options: &[&str]| complaint(&[&["lookup", table, "10.0.0.1"], options].concat()).replace(table, "FILE");
    assert_eq!(
        say(&["--levels", "0"]),
        "refused (2): 0 is no number of levels: say --levels with a number from 1 to 32"
    );
    assert_eq!(
        say(&["--levels", "33"]),
        "refused (2): 33 is no number of levels: say --levels with a number from 1 to 32"
    );
    let remedy = "write one of its links, or discard; or say with --links how many it has";
    let nine = "FILE, line 2: 10.20.30.40/32 has hop 9, and the gateway has 8 links";
    assert_eq!(say(&["--links", "8"]), format!("refused (4): {nine}: {remedy}"));
    assert_eq!(say(&["--links", "8", "--kind", "bitmap"]), format!("refused (4): {nine}: {remedy}"));
    let three = "FILE, line 3: 10.0.0.0/8 has hop 3, and the gateway has 1 link";
    assert_eq!(say(&["--links", "1"]), format!("refused (4): {three}: {remedy}"));
    assert_eq!(
        say(&["--levels", "1", "--kind", "fst"]),
        "refused (7): fst with at most 1 level takes 4,294,967,296 elements, and no build has more than 16,777,216: \
         allow more levels with --levels; yard lookup has --kind bitmap too"
    );
    let svg = folder.unwritten("never.svg");
    for (command, options) in
        [("draw", vec!["--levels", "0"]), ("draw", vec!["--levels", "1"]), ("draw", vec!["--links", "8"])]
    {
        let drawn = complaint(&[&[command, table, "--svg", &svg], options.as_slice()].concat()).replace(table, "FILE");
        assert_eq!(drawn, say(&options));
    }
    assert_eq!(
        complaint(&["compare", table, "--links", "8", "--svg", &svg]).replace(table, "FILE"),
        say(&["--links", "8"])
    );
    assert!(!Path::new(&svg).exists());
    let zero = complaints_of_builds(&folder.file("zero.routes", "10.0.0.0/8 0\n"), &folder);
    assert_eq!(
        zero,
        "refused (4): FILE, line 1: 10.0.0.0/8 has hop 0, and links count from 1: write a link, or discard"
    );
    let many: String =
        (0..=65_536u32).map(|i| format!("{}.{}.{}.0/24 1\n", i >> 16, (i >> 8) & 255, i & 255)).collect();
    let many = complaint(&["lookup", &folder.file("many.routes", &many), "10.0.0.1"]);
    assert!(
        many.starts_with("refused (3): ")
            && many.ends_with("has 65,537 routes, and a table has at most 65,536: divide it"),
        "{many}"
    );
}

/// The commands that build say the same, and write no picture. A sheet is the tablet's to refuse.
fn complaints_of_builds(table: &str, folder: &Folder) -> String {
    let svg = folder.unwritten("refused.svg");
    let said = complaint(&["lookup", table, "10.0.0.1"]);
    assert_eq!(complaint(&["compare", table, "--svg", &svg]), said);
    assert_eq!(complaint(&["draw", table, "--svg", &svg]), said);
    assert!(!Path::new(&svg).exists());
    said.replace(table, "FILE")
}

#[test]
fn refusals_of_the_tablet() {
    let said = |number: u32, detail: u64| {
        complaint_on(format!("refusal={number}\ndetail={detail}\n").as_bytes(), &["read", "-"])
    };
    let nowhere = "no tablet says so: see where the report comes from";
    let words: [(u32, u64, String); 12] = [
        (1, 0, "the width is 0 or above 32: write width=32 in line 1 of the sheet".into()),
        (2, 0, "the level count is 0 or above 32: write a number from 1 to 32 in line 3 of the sheet".into()),
        (3, 0, format!("lists of unequal length, or too many entries: {nowhere}")),
        (
            4,
            2,
            "the entry in lines 10 and 11 of the sheet has more bits than the width, or a hop that is no link of the gateway: \
             shorten the bits; or write a link from 1 to the number in line 4 of the sheet, or 65535, which discards"
                .into(),
        ),
        (5, 63, "the entry in lines 132 and 133 of the sheet does not stand above the one before: sort them, as yard sheet does".into()),
        (6, 113, "the table takes 113 rows of scratch, and the tablet lends 112: take fewer routes, or ask yard lookup".into()),
        (
            7,
            4_294_967_296,
            "the build takes 4,294,967,296 elements, and the tablet lends 8,192: allow more levels, or write kind=vst, or ask yard lookup"
                .into(),
        ),
        (8, 2, "address 3 of the sheet has not as many bits as the width: write as many as line 1 of the sheet says".into()),
        (9, 0, format!("a damaged record or damaged rows: {nowhere}")),
        (10, 0, format!("a bad prefix that was asked about: {nowhere}")),
        (11, 7, "line 7 of the sheet is bad: write it as README's \"A text and its report\" has it".into()),
        (12, 0, format!("a number that no refusal has: {nowhere}")),
    ];
    for (number, detail, words) in words {
        assert_eq!(said(number, detail), format!("standard input: refused ({number}): {words}"));
    }
    assert!(said(4, u64::MAX).contains("refused (4)"));
    let link = complaint(&["read", &example("refused-link.report")]);
    assert!(link.contains("refused (4): the entry in lines 10 and 11 of the sheet"), "{link}");
}

#[test]
fn reports_that_are_none() {
    let said = |report: &[u8]| complaint_on(report, &["read", "-"]).replace("standard input: ", "");
    let head = "refusal=0\ndetail=0\nelements=2\nroot=1\n";
    let bits = "1".repeat(32);
    let bad = [
        ("".into(), "cannot be read: there is nothing"),
        ("refusal=0".into(), "this is no whole report: its last line has no end"),
        ("\n".into(), "line 1: here a report has refusal="),
        ("width=32\n".into(), "line 1: here a report has refusal="),
        ("refusal=0\n".into(), "line 2: here a report has detail="),
        ("refusal=x\ndetail=0\n".into(), "line 1: refusal: 'x' is no number in digits without a leading zero"),
        ("refusal=4\ndetail=0\nelements=0\n".into(), "a report of refusal 4 has two lines, and this one has more"),
        ("refusal=0\ndetail=0\nelements=2\nroot=33\n".into(), "line 4: root: 33 is above 32"),
        (format!("{head}\n"), "line 5: here a report has address="),
        (format!("{head}address=\n"), "line 5: an address has 1 to 32 binary digits, each as many as the first"),
        (format!("{head}address=1{bits}\n"), "line 5: an address has 1 to 32 binary digits, each as many as the first"),
        (format!("{head}address=12\n"), "line 5: an address has 1 to 32 binary digits, each as many as the first"),
        (format!("{head}address={bits}\nhop=65536\n"), "line 6: hop: 65536 is above 65,535"),
        (format!("{head}address=11\nhop=1\nlength=3\n"), "line 7: length: 3 is above 2"),
        (format!("{head}address=11\nhop=0\nlength=1\n"), "line 7: length: 1 is above 0"),
        ("refusal=0\ndetail=1\n".into(), "line 2: detail: 1 is above 0"),
        (
            format!("{head}address=11\nhop=1\nlength=2\nreads=1\naddress=111\n"),
            "line 9: an address has 1 to 32 binary digits, each as many as the first",
        ),
        (format!("{head}address={bits}\nhop=1\nlength=3\n"), "line 8: here a report has reads="),
        (format!("{head}address={bits}\nhop=1\nlength=3\nreads=33\n"), "line 8: reads: 33 is above 32"),
        (
            format!("{head}address={bits}\nhop=1\nlength=3\nreads=1\r\n"),
            "line 8: reads: '1\\r' is no number in digits without a leading zero",
        ),
    ];
    for (report, expected) in bad {
        assert_eq!(said(report.as_bytes()), expected, "{report:?}");
    }
    assert_eq!(said(b"refusal=\xff\n"), "this is no text");
}

#[test]
fn tables_too_large_for_a_sheet_or_a_picture() {
    let folder = Folder::new("large");
    let table = |routes: u32| {
        let lines: String = (0..routes).map(|i| format!("10.0.{i}.0/24 1\n")).collect();
        folder.file(&format!("{routes}.routes"), &lines)
    };
    let (fits, above, svg) = (table(64), table(65), folder.unwritten("p.svg"));
    let addresses = ["10.0.0.1"; 65];
    assert!(complaint(&["sheet", &above, "10.0.0.1"]).ends_with("65.routes: 65 routes, and a sheet has room for 64"));
    assert_eq!(
        complaint(&[&["sheet", fits.as_str()], addresses.as_slice()].concat()),
        "65 addresses, and a sheet has room for 64"
    );
    assert!(said(&[&["sheet", fits.as_str()], &addresses[..64]].concat()).contains("entries=64\n"));
    assert!(
        complaint(&["draw", &above, "--svg", &svg]).ends_with("65.routes: 65 routes, and a picture has room for 64")
    );
    assert!(!Path::new(&svg).exists());
    said(&["draw", &fits, "--svg", &svg]);
    assert!(Path::new(&svg).exists());
}
