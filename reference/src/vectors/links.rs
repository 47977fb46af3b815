//! Hops that the gateway hasn't got (02, [7]), for every vector file: tables with numbers of links that are enough or too
//! few, and the count of what an answer shows of them.

use super::{discards, eight, of, rising, Rising, Vectors};
use crate::random::Random;
use crate::rules::Rules;
use crate::table::{fewest_links, lacks_link, Refusal, Table, DISCARD, LINKS};

/// What the answers of each call that makes test 4 must show.
pub const SHOWN: [&str; 12] = [
    "accepted with a hop of the last link",
    "accepted with hop 65534 of 65534 links",
    "accepted with a discard past the links",
    "accepted without links",
    "refused for a link at the first",
    "refused for a link between",
    "refused for a link at the last",
    "refused for the link after the last",
    "refused for hop 65534",
    "refused for a link before another fault",
    "refused for another fault before a link",
    "refused by 4 before 5 for a link",
];

type Outcome = Result<(), Refusal>;

/// Counts an answer of a call with so many links for these hops or actions. `most` says what it is with the most links.
pub fn count(
    vectors: &mut Vectors,
    call: &str,
    (hops, links): (&[u16], u16),
    answer: Outcome,
    most: impl Fn() -> Outcome,
) {
    let shown = match answer {
        Ok(()) => accepted(hops, links),
        Err(refusal @ Refusal { number: 4 | 5, .. }) => refused(hops, links, refusal, most()),
        Err(_) => vec![],
    };
    for what in shown {
        vectors.hit(&format!("{call} {what}"));
    }
}

/// The same for a table.
pub fn count_table(vectors: &mut Vectors, call: &str, table: &Table, answer: Outcome) {
    count(vectors, call, (&table.hop, table.links), answer, || table.with_links(LINKS).check());
}

fn accepted(hops: &[u16], links: u16) -> Vec<&'static str> {
    let mut shown = vec![];
    if links < LINKS && hops.contains(&links) {
        shown.push("accepted with a hop of the last link");
    }
    if links == 65534 && hops.contains(&links) {
        shown.push("accepted with hop 65534 of 65534 links");
    }
    if links < LINKS && hops.contains(&DISCARD) {
        shown.push("accepted with a discard past the links");
    }
    if links == 0 && !hops.is_empty() {
        shown.push("accepted without links");
    }
    shown
}

/// With the most links the answer is that of the other faults alone.
fn refused(hops: &[u16], links: u16, refusal: Refusal, most: Outcome) -> Vec<&'static str> {
    let at = refusal.detail as usize;
    let other = most.err().filter(|other| [4, 5].contains(&other.number));
    if other == Some(refusal) {
        let later = hops.iter().skip(at + 1).any(|hop| lacks_link(*hop, links));
        return if later { vec!["refused for another fault before a link"] } else { vec![] };
    }
    let mut shown = vec![match at {
        0 => "refused for a link at the first",
        at if at + 1 == hops.len() => "refused for a link at the last",
        _ => "refused for a link between",
    }];
    if hops[at] == links + 1 {
        shown.push("refused for the link after the last");
    }
    if hops[at] == 65534 {
        shown.push("refused for hop 65534");
    }
    match other {
        Some(other) if other.detail == refusal.detail => shown.push("refused by 4 before 5 for a link"),
        Some(_) => shown.push("refused for a link before another fault"),
        None => (),
    }
    shown
}

/// With 0, 1, 65,533, 65,534 and 65,535 links: hops 0, 1, that of the last link, the one after it, 65,534 and 65,535, at
/// the first, the middle and the last entry. The other entries discard, so that they need no link.
fn each_hop() -> Vec<Table> {
    let mut tables = vec![];
    for links in [0u16, 1, 65533, 65534, 65535] {
        let mut hops = vec![0, 1, links, links.saturating_add(1), 65534, 65535];
        hops.sort();
        hops.dedup();
        for (hop, at) in hops.into_iter().flat_map(|hop| [(hop, 0), (hop, 1), (hop, 2)]) {
            let mut made = of(8, &[(0, 0, DISCARD), (64, 2, DISCARD), (128, 1, DISCARD)]);
            (made.links, made.hop[at]) = (links, hop);
            tables.push(made);
        }
    }
    // Where the hop is that of a discard too, its place does not tell.
    tables.dedup();
    tables
}

/// Faults of other kinds, made at an entry behind the first.
#[derive(Clone, Copy, PartialEq, Eq)]
enum Fault {
    Twice,
    Falling,
    TooLong,
    NoHop,
}

fn spoil(table: &mut Table, at: usize, fault: Fault) {
    match fault {
        Fault::Twice => (table.value[at], table.length[at]) = (table.value[at - 1], table.length[at - 1]),
        Fault::Falling => {
            table.value.swap(at - 1, at);
            table.length.swap(at - 1, at);
        }
        Fault::TooLong => table.length[at] = table.width as u8 + 1,
        Fault::NoHop => table.hop[at] = 0,
    }
}

/// One entry without its link and one with another fault, before it, behind it, or the same.
fn two_faults() -> Vec<Table> {
    let mut tables = vec![];
    for (links, hop) in [(1, 2), (65533, 65534)] {
        for (fault, at, lacking) in [Fault::Twice, Fault::Falling, Fault::TooLong, Fault::NoHop]
            .into_iter()
            .flat_map(|fault| (1..4).flat_map(move |at| (0..4).map(move |lacking| (fault, at, lacking))))
        {
            let mut made = of(8, &[(0, 1, 1), (64, 2, 1), (128, 1, 1), (192, 2, 1)]);
            (made.links, made.hop[lacking]) = (links, hop);
            spoil(&mut made, at, fault);
            tables.push(made);
        }
    }
    tables
}

/// Tables of three or four entries: each hop at each place, and with a second fault. At most two nodes are in the 1-bit trie of
/// one that is accepted.
pub fn small() -> Vec<Table> {
    each_hop().into_iter().chain(two_faults()).collect()
}

/// Good tables with hops of few links, of many and of both, some of which discard; and each with discards alone.
fn good() -> Vec<Table> {
    let mut tables = vec![eight(), of(4, &[(0, 0, 300), (8, 1, 65534), (12, 2, 299)])];
    tables.extend(discards());
    tables.push(of(6, &[(0, 6, 65533), (63, 6, DISCARD)]));
    let alone = |table: &Table| Table { hop: vec![DISCARD; table.hop.len()], ..table.clone() };
    tables.iter().flat_map(|table| [table.clone(), alone(table)]).collect()
}

/// Tables in which nothing but a link can be wrong, each with the most links, just enough, one less, and none; and 01's eight
/// prefixes with each number, since the first hop above it stands elsewhere.
pub fn otherwise_good() -> Vec<Table> {
    let mut tables = vec![];
    for made in good() {
        let enough = fewest_links(&made.hop);
        let mut numbers = vec![LINKS, enough, enough.saturating_sub(1), 0];
        numbers.dedup();
        tables.extend(numbers.into_iter().map(|links| made.with_links(links)));
    }
    tables.extend((1..=9).map(|links| eight().with_links(links)));
    tables
}

/// Hops without a link in tables that are refused by 1 or 3 before any entry is looked at.
pub fn refused_before() -> Vec<Table> {
    let made = eight().with_links(4);
    vec![
        Table { width: 0, ..made.clone() },
        Table { width: 33, ..made.clone() },
        Table { value: made.value[..7].to_vec(), ..made.clone() },
        Table { length: vec![1; 9], ..made.clone() },
        Table { hop: made.hop[..7].to_vec(), ..made },
    ]
}

/// The most entries, whose hops rise to 65,535 and begin again at 1, with numbers of links that are enough or lack at any
/// place; and one more, which is refused before any hop is looked at.
pub fn risings() -> Vec<Rising> {
    let with = |links, rising: Rising| Rising { links, ..rising };
    let mut all = [65534, 65533, 40000, 1, 0].map(|links| with(links, rising(16, 65536, 16))).to_vec();
    all.extend([65533, 65532].map(|links| with(links, rising(17, 65533, 17))));
    all.push(with(0, rising(16, 65537, 16)));
    all
}

/// A random table of at most n entries, one in four with a number of links from its own hops.
pub fn any(random: &mut Random, width: u32, n: usize) -> Table {
    let made = random.table(width, n);
    let links = random.links(&made.hop);
    made.with_links(links)
}

/// Random rules likewise.
pub fn any_rules(random: &mut Random, width: u32, n: usize) -> Rules {
    let made = random.rules(width, n);
    let links = random.links(&made.action);
    made.with_links(links)
}
