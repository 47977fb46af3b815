//! A million lookups: the archive against plain Rust, in elements one by one (plain Rust behind the same call, and by reference) and
//! in a batch, and in a tree bitmap one by one (plain Rust behind a call of its own, by value).

use crate::bitmaps::{timed_lookups, Arrays};
use crate::building::{Rows, K};
use crate::plain;
use crate::rounds::{alternate, Timed};
use crate::routes::{Pattern, Routes, PATTERNS};
use hongsamuk::{raw, AnswersMut, Kind, Record};

const LOOKUPS: usize = 1_000_000;
const ROUNDS: usize = 41;
const SEED: u64 = 11;

/// Where a batch is answered.
#[derive(PartialEq, Eq)]
struct Answers {
    number: Vec<u32>,
    hop: Vec<u16>,
    length: Vec<u8>,
    reads: Vec<u32>,
}

impl Answers {
    fn new() -> Answers {
        Answers { number: vec![0; LOOKUPS], hop: vec![0; LOOKUPS], length: vec![0; LOOKUPS], reads: vec![0; LOOKUPS] }
    }

    fn sum(&self, answered: usize) -> u64 {
        let last = answered - 1;
        let (hop, length) = (u64::from(self.hop[last]), u64::from(self.length[last]));
        answered as u64 + u64::from(self.number[last]) + hop + length + u64::from(self.reads[last])
    }
}

/// The header's call.
type Lookup = unsafe extern "C" fn(
    record: Record,
    hop: *const u16,
    hops: usize,
    length: *const u8,
    lengths: usize,
    link: *const u32,
    links: usize,
    stride: *const u8,
    strides: usize,
    address: u32,
) -> raw::Answer;

/// Through a pointer, so that the compiler knows nothing of what is called. The sum keeps it from leaving anything out.
fn one_by_one(lookup: Lookup, record: Record, rows: &Rows, addresses: &[u32]) -> u64 {
    let lookup = std::hint::black_box(lookup);
    let mut sum = 0;
    for address in addresses {
        // SAFETY: pointers and lengths are those of lists, which the call only reads.
        let answer = unsafe {
            lookup(
                record,
                rows.hop.as_ptr(),
                rows.hop.len(),
                rows.length.as_ptr(),
                rows.length.len(),
                rows.link.as_ptr(),
                rows.link.len(),
                rows.stride.as_ptr(),
                rows.stride.len(),
                *address,
            )
        };
        sum += u64::from(answer.number) + u64::from(answer.hop) + u64::from(answer.length) + u64::from(answer.reads);
    }
    sum
}

/// A direct call, not inlined.
fn plain_by_reference(record: Record, rows: &Rows, addresses: &[u32]) -> u64 {
    let rows = rows.elements();
    addresses.iter().map(|address| plain::lookup_by_reference(&record, &rows, *address).sum()).sum()
}

fn archive_batch(record: Record, rows: &Rows, addresses: &[u32], to: &mut Answers) -> u64 {
    let Answers { number, hop, length, reads } = to;
    let room = AnswersMut { number, hop, length, reads };
    let answered = hongsamuk::lookup_batch(&record, rows.lent(), addresses, room);
    to.sum(answered)
}

fn plain_batch(record: Record, rows: &Rows, addresses: &[u32], to: &mut Answers) -> u64 {
    let Answers { number, hop, length, reads } = to;
    let room = plain::Answers { number, hop, length, reads };
    let answered = plain::lookup_batch(record, rows.elements(), addresses, room);
    to.sum(answered)
}

fn tell(kind: &str, rows: u32, pattern: Pattern, call: &str, timed: &Timed) {
    let each = |time: f64| time / LOOKUPS as f64;
    let (ours, theirs, ratio) = (each(timed.first), each(timed.second), timed.ratio);
    println!("| {kind} | {rows} | {pattern:?} | {call} | {ours:.2} | {theirs:.2} | {ratio:.2} |");
}

pub fn measure(routes: &Routes) {
    println!("| Kind | Rows | Addresses | Call | Archive, ns | Plain Rust, ns | Ratio |");
    println!("|---|---|---|---|---|---|---|");
    for kind in [Kind::Fixed, Kind::Variable] {
        let (record, rows) = Rows::of(kind, K, routes);
        for pattern in PATTERNS {
            let addresses = routes.addresses(pattern, LOOKUPS, SEED);
            let (mut ours, mut theirs) = (Answers::new(), Answers::new());
            let archive = || one_by_one(raw::hongsamuk_lookup, record, &rows, &addresses);
            let one = alternate(ROUNDS, archive, || one_by_one(plain::lookup, record, &rows, &addresses));
            let reference = alternate(ROUNDS, archive, || plain_by_reference(record, &rows, &addresses));
            let batch = alternate(
                ROUNDS,
                || archive_batch(record, &rows, &addresses, &mut ours),
                || plain_batch(record, &rows, &addresses, &mut theirs),
            );
            assert!(ours == theirs, "the same answers");
            for (call, timed) in [("one by one", one), ("one by one, by reference", reference), ("batch", batch)] {
                tell(&format!("{kind:?}"), record.elements, pattern, call, &timed);
            }
        }
    }
    let (record, arrays) = Arrays::of(routes);
    for pattern in PATTERNS {
        let addresses = routes.addresses(pattern, LOOKUPS, SEED);
        let timed = timed_lookups(record, &arrays, &addresses, ROUNDS);
        tell("Bitmap", record.supernodes, pattern, "one by one, by value", &timed);
    }
}
