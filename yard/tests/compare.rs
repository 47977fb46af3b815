//! `yard compare`: its numbers, and that a build with another answer than the others is found.

mod common;

use common::*;
use hongsamuk::{Kind, DISCARD};
use yard::arrays::{Arrays, How, Strides};
use yard::compare::{edges, Held};
use yard::dotted::Prefix;
use yard::routes::Routes;

const TABLE: &str = "10.0.0.0/8 3\n10.20.0.0/16 discard\n10.20.30.0/24 4\n192.168.0.0/16 5\n";

fn routes() -> Routes {
    Routes::parse("t.routes", 65_535, TABLE.as_bytes()).unwrap_or_else(|problem| panic!("{problem}"))
}

fn built(how: How) -> Arrays {
    Arrays::build(how, routes().table()).unwrap_or_else(|refusal| panic!("{how}: {refusal:?}")).0
}

fn elements(kind: Kind, levels: u32) -> How {
    How::Elements(Strides { kind, levels })
}

#[test]
fn edges_are_ends_and_neighbours() {
    let one = Routes::parse("t", 1, b"10.0.0.0/8 1\n255.255.255.255/32 1\n0.0.0.0/32 1\n10.1.0.0/16 1")
        .unwrap_or_else(|p| panic!("{p}"));
    let ten = Prefix::of(0x0a000000, 8);
    let expected = [
        0,
        1,
        ten.first() - 1,
        ten.first(),
        ten.first() + 1,
        0x0a00ffff,
        0x0a010000,
        0x0a010001,
        0x0a01fffe,
        0x0a01ffff,
        0x0a020000,
        ten.last() - 1,
        ten.last(),
        ten.last() + 1,
        u32::MAX - 1,
        u32::MAX,
    ];
    assert_eq!(edges(&one), expected);
    let none = Routes::parse("t", 1, b"").unwrap_or_else(|p| panic!("{p}"));
    assert_eq!(edges(&none), [0, 1, u32::MAX - 1, u32::MAX]);
}

#[test]
fn all_builds_agree() {
    let mut held = Held::at(edges(&routes()));
    for how in ways(&[2, 3, 8, 32]) {
        held.hold(how, &built(how)).unwrap_or_else(|problem| panic!("{problem}"));
    }
    assert_eq!(held.verdict(), format!("one table, one answer: {} addresses, 9 builds\n", edges(&routes()).len()));
}

/// What is said where arrays with a fault are held against sound ones. Held the other way round, they are found too.
fn difference(how: How, damage: impl Fn(&mut Arrays)) -> String {
    let sound = elements(Kind::Fixed, 2);
    let mut faulty = built(how);
    damage(&mut faulty);
    let mut held = Held::at(edges(&routes()));
    held.hold(sound, &built(sound)).unwrap_or_else(|problem| panic!("{problem}"));
    let difference = held.hold(how, &faulty).expect_err("a difference").0;
    let mut turned = Held::at(edges(&routes()));
    // A refused lookup is a fault of its own.
    if turned.hold(how, &faulty).is_ok() {
        assert!(turned.hold(sound, &built(sound)).is_err());
    }
    difference
}

#[test]
fn a_planted_difference_is_named() {
    let vst = elements(Kind::Variable, 3);
    let hop = |from: u16, to: u16| {
        move |arrays: &mut Arrays| match arrays {
            Arrays::Elements(elements) => elements.hop.iter_mut().filter(|hop| **hop == from).for_each(|hop| *hop = to),
            Arrays::Bitmap(supernodes) => {
                supernodes.hop_row.iter_mut().filter(|hop| **hop == from).for_each(|hop| *hop = to)
            }
        }
    };
    assert_eq!(
        difference(vst, hop(4, 40)),
        "one table, two answers: 10.20.30.0: fst with at most 2 levels answers hop 4 by 10.20.30.0/24, \
         vst with at most 3 levels answers hop 40 by 10.20.30.0/24"
    );
    assert_eq!(
        difference(vst, hop(DISCARD, 0)),
        "one table, two answers: 10.20.0.0: fst with at most 2 levels answers discard by 10.20.0.0/16, \
         vst with at most 3 levels answers hop 3 by 10.0.0.0/8"
    );
    assert_eq!(
        difference(How::Bitmap, hop(5, DISCARD)),
        "one table, two answers: 192.168.0.0: fst with at most 2 levels answers hop 5 by 192.168.0.0/16, \
         bitmap answers discard by 192.168.0.0/16"
    );
}

#[test]
fn other_faults_are_named_too() {
    let vst = elements(Kind::Variable, 3);
    let length = difference(vst, |arrays| {
        let Arrays::Elements(elements) = arrays else { panic!("elements") };
        elements.length.iter_mut().filter(|length| **length == 24).for_each(|length| *length = 23);
    });
    assert!(length.contains("10.20.30.0/24, ") && length.ends_with("hop 4 by 10.20.30.0/23"), "{length}");
    let link = difference(vst, |arrays| {
        let Arrays::Elements(elements) = arrays else { panic!("elements") };
        let last = elements.link.iter().rposition(|link| *link != 0).expect("a link");
        elements.link[last] = 0;
    });
    assert!(link.starts_with("one table, two answers: "), "{link}");
    let damage = difference(vst, |arrays| {
        let Arrays::Elements(elements) = arrays else { panic!("elements") };
        elements.stride.fill(0);
    });
    assert!(damage.ends_with("answers refused (9)"), "{damage}");
}

/// The cells of a table of `yard compare`, and what stands below it.
fn compared(words: &[&str]) -> (Vec<Vec<String>>, Vec<String>) {
    let text = said(words);
    let cells =
        |line: &str| line.split("  ").map(str::trim).filter(|cell| !cell.is_empty()).map(String::from).collect();
    let lines: Vec<&str> = text.lines().collect();
    (lines[..66].iter().map(|line| cells(line)).collect(), lines[66..].iter().map(|line| line.to_string()).collect())
}

#[test]
fn the_eight_prefix_table_compared() {
    let (rows, below) = compared(&["compare", &example("eight-prefixes.routes"), "--links", "8"]);
    assert_eq!(rows[0], ["kind", "levels", "elements", "bytes", "most reads", "build, ms"]);
    let row = |i: usize| rows[i][..5].to_vec();
    // 01's least costs.
    for (i, elements, bytes) in [(1, "128", "1,024"), (2, "32", "256"), (3, "20", "160"), (4, "18", "144")] {
        assert_eq!(row(i), ["fst", &i.to_string(), elements, bytes, &i.to_string()]);
    }
    for (i, elements, bytes) in [(1, "128", "1,024"), (2, "26", "208"), (3, "20", "160"), (4, "18", "144")] {
        assert_eq!(row(32 + i), ["vst", &i.to_string(), elements, bytes, &i.to_string()]);
    }
    assert_eq!(
        (&row(32)[..3], &row(64)[..3]),
        (["fst", "32", "18"].map(String::from).as_slice(), ["vst", "32", "18"].map(String::from).as_slice())
    );
    assert_eq!(row(65), ["bitmap", "-", "3", "52", "2"]);
    // Two addresses at each end of all, four about 128.0.0.0 and 192.0.0.0, where one route ends and another begins, and three about 136,
    // 144, 160, 194, 196 and 208.0.0.0.
    assert_eq!(
        below,
        [
            "bitmap: 3 supernodes, 8 hops; it has no levels, and a supernode is no element",
            "one table, one answer: 30 addresses, 65 builds"
        ]
    );
}

#[test]
fn a_build_too_large_has_its_line() {
    let text = said(&["compare", &example("brakes.routes")]);
    let lines: Vec<&str> = text.lines().collect();
    assert_eq!(lines[0], "kind    levels       elements      bytes  most reads    build, ms");
    assert_eq!(lines[1], "fst          1  4,294,967,296          -           -  refused (7)");
    assert!(lines[2].starts_with("fst          2        131,072  1,048,576           2  "), "{}", lines[2]);
    let time: f64 = lines[2].split_whitespace().next_back().and_then(|time| time.parse().ok()).expect("a time");
    assert!(time > 0.0 && lines[2].len() == lines[1].len(), "{}", lines[2]);
    let (rows, below) = compared(&["compare", &example("brakes.routes")]);
    assert_eq!(rows[1], ["fst", "1", "4,294,967,296", "-", "-", "refused (7)"]);
    assert_eq!(rows[33], ["vst", "1", "4,294,967,296", "-", "-", "refused (7)"]);
    assert_eq!(below[0], "refused (7): more than 16,777,216 elements, which no build may have");
    assert!(below[2].ends_with(" addresses, 63 builds"), "{below:?}");
}

#[test]
fn the_most_reads_are_those_of_all_addresses() {
    let folder = Folder::new("reads");
    let mut random = Random(7);
    for i in 0..20 {
        // Routes of at most 10 bits, so that all addresses can be asked.
        let text = random.table(12, 10);
        let table = folder.file(&format!("{i}.routes"), &text);
        let (rows, _) = compared(&["compare", &table]);
        let routes = Routes::parse("t", 65_535, text.as_bytes()).unwrap_or_else(|problem| panic!("{problem}"));
        for (row, how) in rows[1..].iter().zip(ways(&(1..=32).collect::<Vec<_>>())) {
            let arrays = Arrays::build(how, routes.table()).unwrap_or_else(|refusal| panic!("{refusal:?}")).0;
            let all = Held::at((0..1 << 12).map(|start: u32| start << 20).collect()).hold(how, &arrays);
            assert_eq!(row[4], all.unwrap_or_else(|problem| panic!("{problem}")).to_string(), "{how}");
        }
    }
}
