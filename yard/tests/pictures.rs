//! Pictures: well-formed, every block, arrow and read in them, no text on another or beside the paper, and those of docs/ as drawn now.

mod common;

use std::fs;

use common::xml::elements;
use common::*;
use hongsamuk::Kind;
use yard::arrays::{Elements, Strides};
use yard::routes::Routes;

/// The shapes of a picture whose class begins with a word: tag and attributes.
fn shapes<'a>(picture: &'a str, class: &str) -> Vec<&'a str> {
    let begins = format!(" class=\"{class}");
    picture
        .lines()
        .filter(|line| line.split_once(' ').is_some_and(|(_, rest)| format!(" {rest}").starts_with(&begins)))
        .collect()
}

fn attribute(shape: &str, name: &str) -> f64 {
    let (_, rest) = shape.split_once(&format!(" {name}=\"")).unwrap_or_else(|| panic!("{name} in {shape}"));
    rest.split('"').next().and_then(|number| number.parse().ok()).unwrap_or_else(|| panic!("{name} in {shape}"))
}

/// The four sides of a rectangle: left, top, right, bottom.
fn sides(rectangle: &str) -> [f64; 4] {
    let [x, y, wide, high] = ["x", "y", "width", "height"].map(|name| attribute(rectangle, name));
    [x, y, x + wide, y + high]
}

fn assert_well_formed(picture: &str, what: &str) {
    elements(picture).unwrap_or_else(|wrong| panic!("{what}: {wrong}"));
    assert!(picture.starts_with("<svg xmlns=\"http://www.w3.org/2000/svg\" width=\"1200\""), "{what}");
}

/// How wide a letter is in texts of a class; 7.3 in others.
const LETTERS: [(&str, f64); 5] = [("title", 9.7), ("small", 6.7), ("answer", 8.5), ("level", 7.9), ("axis", 7.9)];

/// Where a text begins and ends, from left to right.
fn extent(text: &str) -> [f64; 2] {
    let said = text.split_once('>').and_then(|(_, rest)| rest.strip_suffix("</text>")).expect("a text");
    let letter = LETTERS.iter().find(|(class, _)| text.contains(class)).map_or(7.3, |(_, wide)| *wide);
    let (x, wide) = (attribute(text, "x"), said.chars().count() as f64 * letter);
    match text {
        _ if text.contains("end\"") => [x - wide, x],
        _ if text.contains("middle\"") => [x - wide / 2.0, x + wide / 2.0],
        _ => [x, x + wide],
    }
}

/// Blocks stand on the paper and not on each other, and texts begin and end on it.
fn assert_legible(picture: &str, what: &str) {
    let high = attribute(picture.lines().next().expect("a picture"), "height");
    let blocks: Vec<[f64; 4]> = shapes(picture, "block").into_iter().map(sides).collect();
    for (i, [left, top, right, bottom]) in blocks.iter().enumerate() {
        assert!(*left >= 0.0 && *top >= 0.0 && *right <= 1200.0 && *bottom <= high, "{what}: block {i}");
        let is_apart =
            |other: &[f64; 4]| *right <= other[0] || other[2] <= *left || *bottom <= other[1] || other[3] <= *top;
        assert!(blocks[..i].iter().all(is_apart), "{what}: block {i} stands on another");
    }
    let texts: Vec<&str> = picture.lines().filter(|line| line.starts_with("<text")).collect();
    for text in &texts {
        let ([left, right], y) = (extent(text), attribute(text, "y"));
        assert!(left >= 0.0 && right <= 1200.0 && y >= 0.0 && y <= high, "{what}: {text}");
    }
    // What stands at the right of a row does not run into what stands at its left.
    for pair in texts.windows(2) {
        let is_row = pair[1].contains("end\"") && attribute(pair[0], "y") == attribute(pair[1], "y");
        assert!(!is_row || extent(pair[0])[1] < extent(pair[1])[0], "{what}: {pair:?}");
    }
}

/// All texts of a picture, in order.
fn texts(picture: &str) -> Vec<&str> {
    picture.lines().filter(|line| line.starts_with("<text")).filter_map(|text| text.split(['>', '<']).nth(2)).collect()
}

fn drawn(folder: &Folder, table: &str, options: &[&str]) -> (String, String) {
    let svg = folder.unwritten("drawn.svg");
    let said = said(&[&["draw", table, "--svg", &svg], options].concat());
    (fs::read_to_string(&svg).expect("a picture"), said)
}

/// The blocks of a build: the root, and one for each link.
fn blocks(text: &str, strides: Strides) -> usize {
    let routes = Routes::parse("t", 65_535, text.as_bytes()).unwrap_or_else(|problem| panic!("{problem}"));
    let (elements, _) = Elements::build(strides, routes.table()).unwrap_or_else(|refusal| panic!("{refusal:?}"));
    let links = elements.link.iter().filter(|link| **link != 0).count();
    links + usize::from(elements.record.elements > 0)
}

#[test]
fn every_block_and_arrow_is_drawn() {
    let folder = Folder::new("blocks");
    let mut random = Random(11);
    for (i, lines) in [0, 1, 2, 5, 9, 20, 40, 64].into_iter().enumerate() {
        let text = random.table(lines, 32);
        let table = folder.file(&format!("{i}.routes"), &text);
        for (kind, word) in KINDS {
            for levels in [3, 4, 5, 9, 32] {
                let what = format!("{lines} routes, {word}, {levels} levels");
                let (plain, _) = drawn(&folder, &table, &["--kind", word, "--levels", &levels.to_string()]);
                let count = blocks(&text, Strides { kind, levels });
                assert_well_formed(&plain, &what);
                assert_legible(&plain, &what);
                assert_eq!(shapes(&plain, "block").len(), count, "{what}");
                assert_eq!(arrows(&plain), count.saturating_sub(1), "{what}");
                assert!(shapes(&plain, "read").is_empty() && shapes(&plain, "on").is_empty(), "{what}");
            }
        }
    }
}

/// The arrows: one bent or straight within a band; two ends, one of them at a block's left side, from band to band.
fn arrows(picture: &str) -> usize {
    let bent = shapes(picture, "link").iter().filter(|shape| shape.starts_with("<path")).count();
    let ends = shapes(picture, "link").iter().filter(|shape| shape.starts_with("<line")).count();
    assert_eq!(ends % 2, 0);
    bent + ends / 2
}

#[test]
fn a_path_is_numbered_and_coloured() {
    let folder = Folder::new("path");
    let table = example("brakes.routes");
    for (address, hop, expected) in [
        ("10.20.30.41", "hop 21 by 10.20.30.0/24", "won"),
        ("10.20.99.1", "discard by 10.20.99.0/24", "won"),
        ("8.8.8.8", "hop 1 by 0.0.0.0/0", "floor"),
    ] {
        for levels in ["2", "3", "4", "6", "8", "32"] {
            let asked = said(&["lookup", &table, address, "--levels", levels]);
            let reads: usize =
                asked.split_whitespace().next_back().and_then(|reads| reads.parse().ok()).expect("reads");
            let (picture, said) = drawn(&folder, &table, &[address, "--levels", levels]);
            let what = format!("{address}, {levels} levels");
            assert_well_formed(&picture, &what);
            assert_legible(&picture, &what);
            let words = if reads == 1 {
                format!("{address}: {hop}, 1 read")
            } else {
                format!("{address}: {hop}, {reads} reads")
            };
            assert!(said.ends_with(&format!("{words}\n")) && picture.contains(&words), "{what}: {said}");
            let won = shapes(&picture, "won\"").len();
            assert_eq!(won, usize::from(expected == "won"), "{what}");
            assert_eq!(shapes(&picture, "on\"").len() + won, reads, "{what}");
            let numbers: Vec<&str> =
                shapes(&picture, "count").iter().filter_map(|text| text.split(['>', '<']).nth(2)).collect();
            let mut expected: Vec<String> = (1..=reads).map(|read| read.to_string()).collect();
            expected.sort();
            let mut numbers: Vec<String> = numbers.into_iter().map(String::from).collect();
            numbers.sort();
            assert_eq!(numbers, expected, "{what}");
            let steps = shapes(&picture, "link-on");
            let ends = steps.iter().filter(|shape| shape.starts_with("<line")).count();
            assert_eq!(steps.len() - ends / 2, reads - 1, "{what}");
        }
    }
}

/// The rows of the eight-prefix table with two levels, as 01's row rule has them; neighbours that say the same are one.
#[test]
fn rows_have_hop_and_length() {
    let folder = Folder::new("rows");
    let (picture, said) = drawn(&folder, &example("eight-prefixes.routes"), &["--levels", "2"]);
    assert!(said.ends_with("26 elements, root stride 4, 3 blocks, no route of 0 bits\n"), "{said}");
    let texts = texts(&picture);
    let expected = "eight-prefixes.routes, 8 routes: vst with at most 2 levels|26 elements, root stride 4, 3 blocks, no route of 0 bits\
        |level 1|level 2\
        |block 1: level 1, stride 4|0.0.0.0/0|row 0|0000–0111|hop 1 /1|1000|→ 2|hop 2 /1|1001|hop 2 /1|1010–1011|hop 4 /3|1100|→ 3|hop 6 /4|1101–1111|hop 3 /2\
        |block 2: level 2, stride 1|128.0.0.0/4|row 16|0|–|1|hop 5 /5\
        |block 3: level 2, stride 3|192.0.0.0/4|row 18|000|hop 8 /7|001|hop 7 /6|010–111|–";
    assert_eq!(texts[..texts.len() - 1], expected.split('|').collect::<Vec<_>>());
}

/// The same hop by two prefixes is not the same row.
#[test]
fn rows_of_two_lengths_stand_apart() {
    let folder = Folder::new("lengths");
    let (picture, _) = drawn(&folder, &folder.file("t.routes", "0.0.0.0/1 3\n128.0.0.0/2 3\n"), &["--levels", "1"]);
    let rows = ["00\u{2013}01", "hop 3 /1", "10", "hop 3 /2", "11", "\u{2013}"];
    let texts = texts(&picture);
    assert!(texts.windows(rows.len()).any(|texts| texts == rows), "{texts:?}");
}

#[test]
fn names_are_escaped_and_cut() {
    let folder = Folder::new("names");
    for name in ["a&b <c> \"d\" \u{7}.routes", &"long".repeat(50)] {
        let table = folder.file(name, "10.0.0.0/8 3\n");
        let (picture, _) = drawn(&folder, &table, &["10.0.0.1"]);
        let svg = folder.unwritten("chart.svg");
        said(&["compare", &table, "--svg", &svg]);
        for picture in [picture, fs::read_to_string(&svg).expect("a chart")] {
            assert_well_formed(&picture, name);
            assert_legible(&picture, name);
        }
    }
}

#[test]
fn charts_have_a_dot_a_build() {
    let folder = Folder::new("charts");
    let mut random = Random(5);
    for (i, lines) in [0, 1, 3, 30, 300].into_iter().enumerate() {
        let table = folder.file(&format!("{i}.routes"), random.table(lines, 32));
        let svg = folder.unwritten("chart.svg");
        said(&["compare", &table, "--svg", &svg]);
        let chart = fs::read_to_string(&svg).expect("a chart");
        let what = format!("{lines} routes");
        assert_well_formed(&chart, &what);
        assert_legible(&chart, &what);
        for (_, kind) in KINDS {
            let dots = chart.lines().filter(|line| line.contains(&format!("<title>{kind} with at most "))).count();
            assert_eq!(dots, 32, "{what}");
            assert_eq!(
                shapes(&chart, kind).iter().filter(|shape| shape.starts_with("<polyline")).count(),
                2,
                "{what}: line and legend"
            );
        }
    }
}

/// More levels never cost more, so a line never rises to the right; and its last dot stands where the least number of elements is.
#[test]
fn lines_fall_with_more_levels() {
    let folder = Folder::new("falls");
    let svg = folder.unwritten("chart.svg");
    said(&["compare", &example("brakes.routes"), "--svg", &svg]);
    let chart = fs::read_to_string(&svg).expect("a chart");
    for (_, kind) in KINDS {
        let dots: Vec<&str> =
            chart.lines().filter(|line| line.contains(&format!("<title>{kind} with at most "))).collect();
        let places: Vec<(f64, f64)> = dots.iter().map(|dot| (attribute(dot, "cx"), attribute(dot, "cy"))).collect();
        assert!(places.windows(2).all(|pair| pair[0].0 < pair[1].0 && pair[0].1 <= pair[1].1), "{kind}");
        assert!(dots[0].contains("refused (7), 4,294,967,296 elements") && dots[0].contains("refused\""), "{kind}");
        assert!(dots[31].contains("120 elements"), "{kind}");
    }
}

#[test]
fn the_pictures_of_docs_are_current() {
    let folder = Folder::new("docs");
    let kept = |name: &str| {
        fs::read_to_string(top().join("docs").join(name)).unwrap_or_else(|error| panic!("docs/{name}: {error}"))
    };
    let (brakes, eight) = (example("brakes.routes"), example("eight-prefixes.routes"));
    let draws: [(&str, &str, &[&str]); 3] = [
        ("brakes.svg", &brakes, &["10.20.30.41"]),
        ("eight-variable.svg", &eight, &["194.0.0.0", "--levels", "2"]),
        ("eight-fixed.svg", &eight, &["194.0.0.0", "--levels", "4", "--kind", "fst"]),
    ];
    for (name, table, options) in draws {
        assert_eq!(drawn(&folder, table, options).0, kept(name), "docs/{name}: draw it anew");
    }
    let svg = folder.unwritten("chart.svg");
    said(&["compare", &brakes, "--svg", &svg]);
    assert_eq!(
        fs::read_to_string(&svg).expect("a chart"),
        kept("brakes-levels.svg"),
        "docs/brakes-levels.svg: draw it anew"
    );
}

#[test]
fn a_block_of_many_rows_is_drawn_in_few() {
    let folder = Folder::new("wide");
    let text = "10.20.30.0/24 3\n200.64.0.0/10 65534\n";
    let (picture, said) = drawn(&folder, &folder.file("wide.routes", text), &["--levels", "1", "10.20.30.1"]);
    assert_eq!(blocks(text, Strides { kind: Kind::Variable, levels: 1 }), 1);
    assert!(said.contains("16,777,216 elements, root stride 24, 1 block"), "{said}");
    assert_legible(&picture, "wide");
    assert_eq!(shapes(&picture, "row").len() + shapes(&picture, "won").len(), 5);
    assert!(picture.contains(">660510<") && picture.contains(">0–660509<") && picture.contains(">660511–13123583<"));
}

/// The test of well-formedness tests something.
#[test]
fn bad_xml_is_refused() {
    assert_eq!(elements("<a b=\"1\" c=\"&lt;\">x &amp; y<d/></a>\n"), Ok(vec!["a".into(), "d".into()]));
    let bad =
        ["", "a", "<a>", "<a></b>", "<a/><b/>", "<a/>b", "<a b=1/>", "<a b=\"1\"c=\"2\"/>", "<a b=\"1\" b=\"2\"/>"];
    let worse =
        ["<a>&</a>", "<a>&nbsp;</a>", "<a b=\"&\"/>", "<a b=\"1/>", "<a <b/></a>", "<a>\u{1b}</a>", "<a><b></a></b>"];
    for text in bad.into_iter().chain(worse) {
        assert!(elements(text).is_err(), "{text}");
    }
}
