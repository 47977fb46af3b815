//! Rules of two fields: classifications of the archive against plain Rust with the same arrays, behind the same call, and against a
//! plain scan over the rules; and builds of the archive.

use crate::building::{Rows, K};
use crate::firewall::{Firewall, Pairs, PAIRS};
use crate::plain;
use crate::rounds::{alone, alternate};
use hongsamuk::{raw, Kind, Outcome, RowsMut, RuleRecord, Rules, SCRATCH_ROW, TRIE_ROW};
use reference::random::Random;

/// Destinations, and the sources of each.
const LISTS: [(usize, usize); 3] = [(4, 4), (16, 8), (64, 16)];
const KINDS: [Kind; 2] = [Kind::Fixed, Kind::Variable];
const CLASSIFICATIONS: usize = 250_000;
const ROUNDS: usize = 41;
/// A scan of many rules takes long.
const SCAN_ROUNDS: usize = 11;
const BUILD_ROUNDS: usize = 101;
/// Classifications over what was damaged, of the shortest list in each kind.
const DAMAGES: usize = 100_000;
const SEED: u64 = 13;

/// What a build leaves, and the scratch rows that it needs.
#[derive(Clone)]
struct Made {
    record: RuleRecord,
    rows: Rows,
    list: Vec<u32>,
    nodes: usize,
}

fn lent(firewall: &Firewall) -> Rules<'_> {
    let rules = &firewall.rules;
    Rules {
        width: rules.width,
        links: rules.links,
        dest_value: &rules.dest_value,
        dest_length: &rules.dest_length,
        source_value: &rules.source_value,
        source_length: &rules.source_length,
        action: &rules.action,
    }
}

fn build(kind: Kind, firewall: &Firewall, scratch: &mut [u64], made: &mut Made) -> Outcome {
    let Rows { hop, length, link, stride } = &mut made.rows;
    let room = RowsMut { hop, length, link, stride };
    let built = hongsamuk::build_rules(kind, K, lent(firewall), scratch, room, &mut made.list);
    made.record = built.record;
    built.outcome
}

impl Made {
    /// What the archive builds, in lists just long enough, as the refusals tell.
    fn of(kind: Kind, firewall: &Firewall) -> Made {
        let list = vec![0; firewall.dests.len() * TRIE_ROW];
        let mut made = Made { record: RuleRecord::default(), rows: Rows::new(0), list, nodes: 0 };
        let told = |outcome| match outcome {
            Outcome::Refused { number: 6..=7, detail } => detail as usize,
            other => panic!("no refusal for room: {other:?}"),
        };
        made.nodes = told(build(kind, firewall, &mut [], &mut made));
        let mut scratch = vec![0; made.nodes * SCRATCH_ROW];
        made.rows = Rows::new(told(build(kind, firewall, &mut scratch, &mut made)));
        let built = build(kind, firewall, &mut scratch, &mut made);
        assert!(built == Outcome::Accepted, "room for all tries");
        made
    }
}

/// The header's call.
type Classify = unsafe extern "C" fn(
    record: RuleRecord,
    hop: *const u16,
    hops: usize,
    length: *const u8,
    lengths: usize,
    link: *const u32,
    links: usize,
    stride: *const u8,
    strides: usize,
    list: *const u32,
    numbers: usize,
    dest: u32,
    source: u32,
) -> raw::Verdict;

#[inline(always)]
fn verdict(classify: Classify, made: &Made, (dest, source): (u32, u32)) -> raw::Verdict {
    let Made { record, rows, list, .. } = made;
    // SAFETY: pointers and lengths are those of lists, which the call only reads.
    unsafe {
        classify(
            *record,
            rows.hop.as_ptr(),
            rows.hop.len(),
            rows.length.as_ptr(),
            rows.length.len(),
            rows.link.as_ptr(),
            rows.link.len(),
            rows.stride.as_ptr(),
            rows.stride.len(),
            list.as_ptr(),
            list.len(),
            dest,
            source,
        )
    }
}

/// Through a pointer, so that the compiler knows nothing of what is called. The sum keeps it from leaving anything out.
fn one_by_one(classify: Classify, made: &Made, pairs: &[(u32, u32)]) -> u64 {
    let classify = std::hint::black_box(classify);
    let mut sum = 0;
    for pair in pairs {
        let verdict = verdict(classify, made, *pair);
        sum += u64::from(verdict.number) + u64::from(verdict.action) + u64::from(verdict.reads);
    }
    sum
}

/// A scan reads no block and refuses nothing: the action is all.
fn scanned(firewall: &Firewall, pairs: &[(u32, u32)]) -> u64 {
    pairs.iter().map(|(dest, source)| u64::from(plain::scan(&firewall.ranked, *dest, *source))).sum()
}

/// The same verdict from all three ways, pair by pair. Returns the blocks read in all.
fn agreed(firewall: &Firewall, made: &Made, pairs: &[(u32, u32)]) -> u64 {
    let mut reads = 0;
    for pair in pairs {
        let ours = verdict(raw::hongsamuk_classify, made, *pair);
        assert!(ours == verdict(plain::classify, made, *pair), "plain Rust's verdict");
        assert!((ours.number, ours.action) == (0, plain::scan(&firewall.ranked, pair.0, pair.1)), "the scan's action");
        reads += u64::from(ours.reads);
    }
    reads
}

/// One thing made wrong: in the record, in the list of tries, or in every row that leads on.
fn damage(made: &mut Made, random: &mut Random) {
    let any = [0, 1, 2, 31, 33, 255, 256, 65_535, 65_536, u32::MAX, random.next() as u32];
    let any = random.of(&any);
    let (dest, at) = (&mut made.record.dest, random.within(0, made.list.len() as u64 - 1) as usize);
    match random.within(0, 9) {
        0 => dest.width = any,
        1 => dest.levels = any,
        2 => dest.elements = any,
        3 => dest.floor = any as u16,
        4 => dest.strides[0] = any as u8,
        5 => made.record.elements = made.record.elements.wrapping_add(any),
        6 => made.list.truncate(at),
        7 => made.list[at] = any,
        8 => made.rows.link.iter_mut().filter(|link| **link != 0).for_each(|link| *link = any),
        _ => made.rows.stride.iter_mut().for_each(|stride| *stride = any as u8),
    }
}

/// Plain Rust keeps every refusal: over damaged arrays too it says what the archive says.
fn agreed_damaged(made: &Made, firewall: &Firewall) {
    let pairs = firewall.pairs(Pairs::Matched, DAMAGES, SEED);
    let mut random = Random::new(SEED);
    let mut met = [false; 10];
    let mut harmed = made.clone();
    for pair in &pairs {
        harmed.clone_from(made);
        damage(&mut harmed, &mut random);
        let ours = verdict(raw::hongsamuk_classify, &harmed, *pair);
        assert!(ours == verdict(plain::classify, &harmed, *pair), "plain Rust's verdict over damaged arrays");
        met[ours.number as usize] = true;
    }
    assert!([0, 1, 2, 8, 9].iter().all(|number| met[*number]), "every refusal is met");
}

fn measure_pairs(kind: Kind, firewall: &Firewall, made: &Made, sort: Pairs) {
    let pairs = firewall.pairs(sort, CLASSIFICATIONS, SEED);
    let each = |all: f64| all / CLASSIFICATIONS as f64;
    let reads = agreed(firewall, made, &pairs);
    let visits: usize = pairs.iter().map(|pair| firewall.visits(*pair)).sum();
    let archive = || one_by_one(raw::hongsamuk_classify, made, &pairs);
    let plainly = alternate(ROUNDS, archive, || one_by_one(plain::classify, made, &pairs));
    // Both tell the blocks that the archive read, which the scan does not know.
    let scan = alternate(SCAN_ROUNDS, archive, || scanned(firewall, &pairs) + reads);
    println!(
        "| {} | {kind:?} | {sort:?} | {:.2} | {:.2} | {:.1} | {:.1} | {:.2} | {:.1} | {:.2} |",
        firewall.rules.count(),
        each(visits as f64),
        each(reads as f64),
        each(plainly.first),
        each(plainly.second),
        plainly.ratio,
        each(scan.second),
        scan.ratio,
    );
}

fn measure_build(kind: Kind, firewall: &Firewall) {
    let mut made = Made::of(kind, firewall);
    let mut scratch = vec![0; made.nodes * SCRATCH_ROW];
    let time = alone(BUILD_ROUNDS, || build(kind, firewall, &mut scratch, &mut made));
    let (rules, dests) = (firewall.rules.count(), firewall.dests.len());
    println!("| {rules} | {kind:?} | {dests} | {} | {} | {:.3} |", made.nodes, made.record.elements, time / 1e6);
}

pub fn measure(seed: u64) {
    let firewalls = LISTS.map(|(dests, sources)| Firewall::new(dests, sources, seed));
    let each = || firewalls.iter().flat_map(|firewall| KINDS.map(|kind| (firewall, kind)));
    for kind in KINDS {
        agreed_damaged(&Made::of(kind, &firewalls[0]), &firewalls[0]);
    }
    println!(
        "| Rules | Kind | Pairs | Source tries | Blocks | Archive, ns | Plain Rust, ns | Ratio | Scan, ns | Ratio |"
    );
    println!("|---|---|---|---|---|---|---|---|---|---|");
    for (firewall, kind) in each() {
        let made = Made::of(kind, firewall);
        for sort in PAIRS {
            measure_pairs(kind, firewall, &made, sort);
        }
    }
    println!("\n| Rules | Kind | Destinations | Scratch rows | E of all tries | Build, ms |");
    println!("|---|---|---|---|---|---|");
    for (firewall, kind) in each() {
        measure_build(kind, firewall);
    }
}
