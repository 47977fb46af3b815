//! What people write and what they read, both ways: addresses, prefixes, hops, route files, sheets, reports and answers.

mod common;

use std::fs;

use common::*;
use hongsamuk::DISCARD;
use yard::arrays::Arrays;
use yard::compare::edges;
use yard::dotted::{address, dotted, grouped, hop, hop_word, number, Prefix};
use yard::routes::Routes;

fn prefix(text: &str) -> Prefix {
    text.parse().expect(text)
}

fn routes(text: impl AsRef<[u8]>) -> Routes {
    Routes::parse("a table", 65_535, text.as_ref()).unwrap_or_else(|problem| panic!("{problem}"))
}

/// The routes as one would write them down again.
fn written(routes: &Routes) -> Vec<String> {
    routes.routes.iter().map(|route| format!("{} {} {}", route.line, route.prefix, hop_word(route.hop))).collect()
}

#[test]
fn addresses_both_ways() {
    for (text, bits) in
        [("0.0.0.0", 0), ("10.20.30.40", 0x0a141e28), ("255.255.255.255", u32::MAX), ("128.0.0.1", 0x80000001)]
    {
        assert_eq!(address(text).as_ref(), Ok(&bits));
        assert_eq!(dotted(bits), text);
    }
    for bad in [
        "",
        "10",
        "10.0.0",
        "10.0.0.0.0",
        "10.0.0.256",
        "010.0.0.1",
        "+1.0.0.0",
        "1.0.0.0 ",
        "a.b.c.d",
        "1..0.0",
        "::1",
    ] {
        assert!(address(bad).is_err(), "{bad}");
    }
}

#[test]
fn prefixes_both_ways() {
    for length in 0..=32 {
        for bits in [0, u32::MAX, 0x0a141e28, 0x55555555] {
            let one = Prefix::of(bits, length);
            assert_eq!(prefix(&one.to_string()), one);
            assert_eq!((one.first() ^ one.last()).count_ones(), 32 - u32::from(length));
            assert_eq!((Prefix::of(one.last(), length), one.length()), (one, length));
        }
    }
    assert_eq!((prefix("10.20.0.0/16").first(), prefix("10.20.0.0/16").last()), (0x0a140000, 0x0a14ffff));
    assert_eq!((prefix("0.0.0.0/0").first(), prefix("0.0.0.0/0").last()), (0, u32::MAX));
    assert!(prefix("10.0.0.0/8") < prefix("10.0.0.0/9") && prefix("10.0.0.0/9") < prefix("10.64.0.0/10"));
    for bad in [
        "10.0.0.0",
        "10.0.0.0/",
        "10.0.0.0/33",
        "10.0.0.0/08",
        "10.0.0.0/+8",
        "10.0.0.1/31",
        "0.0.0.1/0",
        "10/8",
        "/8",
        "1.0.0.0/8/8",
    ] {
        assert!(bad.parse::<Prefix>().is_err(), "{bad}");
    }
}

#[test]
fn hops_and_numbers_both_ways() {
    for (text, bits) in [("0", 0), ("1", 1), ("65534", 65_534), ("discard", DISCARD)] {
        assert_eq!(hop(text).as_ref(), Ok(&bits));
        assert_eq!(hop_word(bits), text);
    }
    assert_eq!(hop("65535"), Ok(DISCARD));
    for bad in ["", "-1", "65536", "Discard", "3 ", "0x3", "03", "99999999999999999999999"] {
        assert!(hop(bad).is_err(), "{bad}");
    }
    assert_eq!((number("0", 0), number("18446744073709551615", u64::MAX)), (Ok(0), Ok(u64::MAX)));
    let numbers = [0, 7, 999, 1000, 16_777_216, 1_234_567_890];
    assert_eq!(numbers.map(grouped), ["0", "7", "999", "1,000", "16,777,216", "1,234,567,890"]);
}

#[test]
fn a_file_of_routes_may_stand_in_any_order_with_comments() {
    let text = b"# a yard \xff\n\n10.20.0.0/16\tdiscard # taken down\r\n  0.0.0.0/0 1\n10.0.0.0/8   3#x\n \t \n10.0.0.0/16 65534";
    assert_eq!(
        written(&routes(text)),
        ["4 0.0.0.0/0 1", "5 10.0.0.0/8 3", "7 10.0.0.0/16 65534", "3 10.20.0.0/16 discard"]
    );
    let table = routes(text);
    let lent = table.table();
    assert_eq!((lent.width, lent.links), (32, 65_535));
    assert_eq!(lent.value, [0, 0x0a000000, 0x0a000000, 0x0a140000]);
    assert_eq!((lent.length, lent.hop), ([0, 8, 16, 16].as_slice(), [1, 3, 65_534, 65_535].as_slice()));
    assert_eq!(written(&routes("\u{feff}10.0.0.0/8 3\n")), ["1 10.0.0.0/8 3"]);
    assert!(routes("# nothing\n").routes.is_empty() && routes("").routes.is_empty());
}

#[test]
fn answers_are_those_of_a_plain_scan() {
    let mut random = Random(1);
    for lines in [0, 1, 2, 3, 8, 40, 200] {
        let routes = routes(random.table(lines, 32));
        let addresses = edges(&routes);
        for how in ways(&[2, 3, 7, 32]) {
            let (arrays, _) = Arrays::build(how, routes.table()).unwrap_or_else(|refusal| panic!("{how}: {refusal:?}"));
            for address in &addresses {
                assert_eq!(arrays.lookup(*address).won(), scan(&routes, *address), "{how}: {}", dotted(*address));
            }
        }
    }
}

/// 01's values of the eight-prefix table.
#[test]
fn a_lookup_in_columns() {
    let table = example("eight-prefixes.routes");
    let asked = ["194.0.0.0", "192.0.0.0", "206.0.0.0", "208.0.0.0", "142.0.0.0", "158.0.0.0", "0.0.0.0"];
    let words = |options: &[&str]| said(&[&["lookup", table.as_str()], options, &asked].concat());
    let two = "\
vst with at most 2 levels: 26 elements, root stride 4
address    hop  prefix       reads
194.0.0.0  7    192.0.0.0/6      2
192.0.0.0  8    192.0.0.0/7      2
206.0.0.0  6    192.0.0.0/4      2
208.0.0.0  3    192.0.0.0/2      1
142.0.0.0  5    136.0.0.0/5      2
158.0.0.0  2    128.0.0.0/1      1
0.0.0.0    1    0.0.0.0/1        1
";
    assert_eq!(words(&["--levels", "2"]), two);
    assert_eq!(words(&["--levels=2", "--kind=vst", "--links=8"]), two);
    assert!(words(&[]).starts_with("vst with at most 4 levels: 18 elements, root stride 1\n"));
    assert!(words(&["--kind", "fst", "--levels", "1"])
        .starts_with("fst with at most 1 level: 128 elements, root stride 7\n"));
    assert!(words(&["--kind", "bitmap"]).starts_with("bitmap: 3 supernodes, 8 hops\n"));
    // The same hop and prefix of each address, however it is built.
    let answers = |text: &str| -> Vec<Vec<String>> {
        let cells = |line: &str| line.split_whitespace().take(3).map(String::from).collect();
        text.lines().skip(1).map(cells).collect()
    };
    for options in [vec!["--kind", "bitmap"], vec!["--kind", "fst", "--levels", "3"], vec!["--levels", "32"]] {
        assert_eq!(answers(&words(&options)), answers(two), "{options:?}");
    }
}

#[test]
fn discards_and_no_route_in_words() {
    let folder = Folder::new("words");
    let table = folder.file("corner.routes", "10.20.0.0/16 discard\n10.0.0.0/8 3\n");
    let text = "\
fst with at most 2 levels: 512 elements, root stride 8
address          hop       prefix        reads
10.20.255.255    discard   10.20.0.0/16      2
10.21.0.0        3         10.0.0.0/8        2
255.255.255.255  no route  -                 1
";
    let asked = ["10.20.255.255", "10.21.0.0", "255.255.255.255"];
    assert_eq!(said(&[&["lookup", &table, "--kind", "fst", "--levels", "2"], asked.as_slice()].concat()), text);
    // The same from standard input, and from no routes at all.
    let ran = yard_on(
        &fs::read(&table).expect("a table"),
        &[&["lookup", "-", "--kind", "fst", "--levels", "2"], asked.as_slice()].concat(),
    );
    assert_eq!((ran.status, ran.said.as_str()), (0, text));
    let empty = "vst with at most 4 levels: 0 elements, root stride 0\naddress  hop       prefix  reads\n1.2.3.4  no route  -           0\n";
    assert_eq!(said(&["lookup", &folder.file("empty.routes", ""), "1.2.3.4"]), empty);
}

const BRAKE: &str = "10.20.0.0/16 20\n10.20.30.40/32 3\n10.0.0.0/8 1\n";
const BRAKE_ASKED: [&str; 5] = ["10.20.30.40", "10.20.30.41", "10.20.255.255", "10.1.2.3", "192.168.0.1"];

/// The tablet's texts and reports are those of `examples`, which the gate runs the proved tablet on.
#[test]
fn sheets_and_reports_are_the_tablets() {
    let folder = Folder::new("sheets");
    let table = folder.file("brake.routes", BRAKE);
    for (levels, name) in [("3", "brake-few-levels"), ("8", "brake-more-levels")] {
        let options = ["--kind", "vst", "--levels", levels, "--links", "24"];
        let sheet = said(&[&["sheet", &table], options.as_slice(), &BRAKE_ASKED].concat());
        assert_eq!(sheet, fs::read_to_string(example(&format!("{name}.txt"))).expect(name));
        let lookup = said(&[&["lookup", &table], options.as_slice(), &BRAKE_ASKED].concat());
        let read = said(&["read", &example(&format!("{name}.report"))]);
        assert_eq!(read.strip_prefix("tablet: "), lookup.strip_prefix(&format!("vst with at most {levels} levels: ")));
    }
    let empty = said(&["sheet", &folder.file("floor.routes", "0.0.0.0/0 discard"), "--kind", "fst", "0.0.0.1"]);
    let expected = format!(
        "width=32\nkind=fst\nlevels=4\nlinks=65535\nentries=1\nbits=\nhop=65535\nqueries=1\naddress={}1\n",
        "0".repeat(31)
    );
    assert_eq!(empty, expected);
}

/// A prefix of every length, and an address with every digit, of which both are seen.
#[test]
fn sheets_have_every_bit() {
    let folder = Folder::new("bits");
    for bits in [0x5a5a0ff0u32, 0xa5a5f00f] {
        let lines: String =
            (0..=32).map(|length| format!("{} {}\n", Prefix::of(bits, length), u16::from(length) + 1)).collect();
        let sheet = said(&["sheet", &folder.file("chain.routes", &lines), &dotted(bits)]);
        let digits = format!("{bits:032b}");
        let mut entries: Vec<(String, usize)> = (0..=32).map(|length| (digits[..length].into(), length + 1)).collect();
        entries.sort();
        let entries: String = entries.iter().map(|(bits, hop)| format!("bits={bits}\nhop={hop}\n")).collect();
        let head = "width=32\nkind=vst\nlevels=4\nlinks=65535\nentries=33\n";
        assert_eq!(sheet, format!("{head}{entries}queries=1\naddress={digits}\n"));
    }
}

#[test]
fn reports_in_dotted_words() {
    let few = "\
tablet: 5,120 elements, root stride 10
address        hop       prefix          reads
10.20.30.40    3         10.20.30.40/32      3
10.20.30.41    20        10.20.0.0/16        3
10.20.255.255  20        10.20.0.0/16        2
10.1.2.3       1         10.0.0.0/8          2
192.168.0.1    no route  -                   1
";
    assert_eq!(said(&["read", &example("brake-few-levels.report")]), few);
    // Addresses of fewer bits have no dotted form.
    let small = "\
tablet: 6 elements, root stride 1
address  hop       prefix  reads
101      2         101*        2
111      1         1*          2
011      no route  -           1
";
    assert_eq!(said(&["read", &example("small.report")]), small);
    assert!(said(&["read", &example("discarded-corner.report")]).contains("discard"));
    let ran = yard_on(b"refusal=0\ndetail=0\nelements=0\nroot=0\n", &["read", "-"]);
    assert_eq!(ran.said, "tablet: 0 elements, root stride 0\naddress  hop  prefix  reads\n");
}

#[test]
fn help_is_said() {
    for word in ["help", "--help", "-h"] {
        let help = said(&[word]);
        assert!(["lookup", "compare", "draw", "sheet", "read", "--svg"].iter().all(|word| help.contains(word)));
        assert!(help.lines().all(|line| line.chars().count() <= 140));
    }
}

/// What README shows is what is said.
#[test]
fn readme_is_true() {
    let readme = fs::read_to_string(top().join("README.md")).expect("README.md");
    let lookup = said(&["lookup", &example("brakes.routes"), "10.20.30.40", "10.20.30.41", "10.20.99.7"]);
    let shown: String = lookup.lines().map(|line| format!("    {line}\n")).collect();
    assert!(readme.contains(&shown), "{shown}");
    let refused = complaint(&["lookup", &example("brakes.routes"), "10.20.30.41", "--links", "5"])
        .replace(&example(""), "examples/");
    assert!(readme.replace("\n    ", " ").contains(&format!("yard: {refused}")), "{refused}");
    let compared = said(&["compare", &example("brakes.routes")]);
    let verdict = compared.lines().next_back().expect("a verdict");
    assert!(readme.contains(&format!("`{verdict}`")), "{verdict}");
}
