//! The cases of the crate `table`: its check, zones and shared lengths. A `table` line sets the table of
//! the `zone` lines below it.

mod linked;

use super::{
    discards, eight, full, lengths_line, links, of, outcome, over, refused, rising, table_line, with_lengths, Rising,
    Vectors, PLACES,
};
use crate::random::{cut, Random};
use crate::table::{shared_length, Table, LINKS};

const WANTED: &[&str] = &[
    "check accepted",
    "check refused 1",
    "check refused 3",
    "check refused 4",
    "check refused 5",
    "zone accepted",
    "zone refused 1",
    "zone refused 3",
    "zone refused 4",
    "zone refused 5",
    "zone refused 10",
    "zone with entries",
    "zone of all entries",
    "zone empty before an entry",
    "zone empty at n",
    "shared accepted",
    "shared refused 1",
    "shared refused 10",
    "shared equal values",
    "shared up to a difference",
    "shared up to the shorter length",
    "damage width",
    "damage lists unequal",
    "damage length above the width",
    "damage value too large",
    "damage bit past the length",
    "damage hop 0",
    "damage entry twice",
    "damage entries exchanged",
    "damage too few links",
];

/// The check of the table that a line gives.
fn checked(vectors: &mut Vectors, line: String, made: &Table) {
    let answer = made.check();
    vectors.outcome("check", &answer);
    links::count_table(vectors, "check", made, answer);
    vectors.case(line, outcome(answer));
}

fn table(vectors: &mut Vectors, table: &Table) {
    checked(vectors, table_line(table), table);
}

/// A zone of the table that the last `table` line gave: index and count or the refusal, then the part
/// of the value list, which is empty on a refusal.
fn zone(vectors: &mut Vectors, table: &Table, prefix: u32, length: u8) {
    let answer = table.zone(prefix, length);
    vectors.outcome("zone", &answer);
    links::count_table(vectors, "zone", table, answer.map(|_| ()));
    let (span, part) = match answer {
        Ok((index, count)) => (format!("part {index} {count}"), &table.value[index..index + count]),
        Err(refusal) => (refused(refusal), &table.value[0..0]),
    };
    if let Ok((index, count)) = answer {
        let n = table.value.len();
        match (index, count) {
            (i, 0) if i == n => vectors.hit("zone empty at n"),
            (_, 0) => vectors.hit("zone empty before an entry"),
            (0, c) if c == n => vectors.hit("zone of all entries"),
            _ => vectors.hit("zone with entries"),
        }
    }
    let values: String = part.iter().map(|v| format!(" {v}")).collect();
    vectors.case(format!("zone {prefix} length {length}"), format!("{span} holds {}:{values}", part.len()));
}

fn shared(vectors: &mut Vectors, width: u32, a: (u32, u8), b: (u32, u8)) {
    let answer = shared_length(width, a.0, a.1, b.0, b.1);
    vectors.outcome("shared", &answer);
    if let Ok(bits) = answer {
        vectors.hit(if a.0 == b.0 {
            "shared equal values"
        } else if bits < a.1.min(b.1).into() {
            "shared up to a difference"
        } else {
            "shared up to the shorter length"
        });
    }
    let line = format!("shared width {width}: {} length {}, {} length {}", a.0, a.1, b.0, b.1);
    vectors.case(line, answer.map_or_else(refused, |bits| format!("length {bits}")));
}

fn eight_prefixes(vectors: &mut Vectors) {
    let eight = eight();
    shared(vectors, 7, (68, 5), (80, 3));
    table(vectors, &eight);
    zone(vectors, &eight, 96, 4);
    for i in 0..eight.value.len() {
        zone(vectors, &eight, eight.value[i], eight.length[i]);
        for j in 0..eight.value.len() {
            shared(vectors, 7, (eight.value[i], eight.length[i]), (eight.value[j], eight.length[j]));
        }
    }
    for (prefix, length) in [(0, 0), (0, 2), (32, 2), (120, 4), (127, 7), (112, 3), (97, 4), (96, 8), (128, 1)] {
        zone(vectors, &eight, prefix, length);
    }
    for width in [0, 1, 2, 6, 8, 32, 33, 4294967295] {
        let mut other = eight.clone();
        other.width = width;
        table(vectors, &other);
        zone(vectors, &other, 96, 4);
        shared(vectors, width, (68, 5), (80, 3));
    }
}

/// The two ends of every range: widths, hops, values, and tables of no entry or only a length 0 entry.
fn edges(vectors: &mut Vectors) {
    for width in [0, 1, 2, 31, 32, 33, 34, 64, 255, 256, 288, 65536, 65568, 4294967295] {
        let empty = of(width, &[]);
        table(vectors, &empty);
        zone(vectors, &empty, 0, 0);
        zone(vectors, &empty, 1, 1);
        let floor = of(width, &[(0, 0, 65535)]);
        table(vectors, &floor);
        zone(vectors, &floor, 0, 0);
        zone(vectors, &floor, 0, 1);
        zone(vectors, &floor, 2147483648, 1);
        shared(vectors, width, (0, 0), (0, 0));
    }
    for hop in [0, 1, 2, 65533, 65534, 65535] {
        for entries in [vec![(0, 0, hop)], vec![(0, 1, 1), (128, 1, hop)], vec![(0, 1, hop), (64, 2, 9)]] {
            let table_of = of(8, &entries);
            table(vectors, &table_of);
            zone(vectors, &table_of, 0, 1);
        }
    }
    for made in discards() {
        assert!(made.check().is_ok());
        table(vectors, &made);
        zone(vectors, &made, made.value[0], made.length[0]);
        zone(vectors, &made, 0, 0);
    }
    let top = of(
        32,
        &[(0, 0, 1), (0, 32, 2), (2147483648, 1, 3), (4294967294, 31, 4), (4294967294, 32, 5), (4294967295, 32, 6)],
    );
    table(vectors, &top);
    for (prefix, length) in
        [(0, 0), (0, 32), (4294967295, 32), (4294967294, 31), (4294967294, 32), (1, 32), (2147483648, 2)]
    {
        zone(vectors, &top, prefix, length);
    }
    for length in [0, 1, 31, 32, 33, 255] {
        for value in [0, 1, 2147483648, 4294967294, 4294967295] {
            shared(vectors, 32, (4294967295, 32), (value, length));
            shared(vectors, 32, (value, length), (0, 0));
        }
    }
}

/// Some 4,096 entries, 01's limit before 02: one more is accepted too, and the last entry is tested.
fn large(vectors: &mut Vectors, random: &mut Random) {
    let some = |n: u32| of(13, &(0..n).map(|i| (2 * i, 12, 1)).collect::<Vec<_>>());
    let most = some(4096);
    table(vectors, &most);
    for (prefix, length) in [(4096, 3), (8190, 12), (8191, 13), (0, 13), (8190, 11), (64, 7)] {
        zone(vectors, &most, prefix, length);
    }
    let mut hop = most.clone();
    for last in [0, 65535] {
        hop.hop[4095] = last;
        table(vectors, &hop);
    }
    let mut order = some(4095);
    order.value.push(8188);
    order.length.push(12);
    order.hop.push(2);
    table(vectors, &order);
    zone(vectors, &order, 0, 0);
    let mut more = most.clone();
    more.value.push(8191);
    more.length.push(13);
    more.hop.push(1);
    table(vectors, &more);
    zone(vectors, &more, 0, 0);
    let wide = full(random, 32, 4096);
    table(vectors, &wide);
    for i in [0, 1, 1000, 4000] {
        let of = (wide.value[i], wide.length[i]);
        zone(vectors, &wide, of.0, of.1);
        let near = random.relative(32, of);
        zone(vectors, &wide, near.0, near.1);
    }
}

/// The check of a table that its line makes.
fn risen(vectors: &mut Vectors, rising: Rising) -> Table {
    let made = rising.table();
    checked(vectors, rising.line(), &made);
    made
}

/// The check of the entries of the lines before, with lists of these lengths.
fn relisted(vectors: &mut Vectors, made: &Table, lists: [usize; 3]) -> Table {
    let made = with_lengths(made, lists);
    checked(vectors, lengths_line(&made), &made);
    made
}

/// n at its limit: 65,536 entries are accepted, 65,537 are refused by 3, before any entry is looked at.
fn most(vectors: &mut Vectors) {
    let of_16 = |width, entries| rising(width, entries, 16);
    for entries in [4096, 4097, 65535, 65536, 65537, PLACES + 1, PLACES] {
        risen(vectors, of_16(16, entries));
    }
    for lists in
        [[65536; 3], [65537, 65536, 65536], [65536, 65537, 65536], [65536, 65536, 65537], [65537, 65537, 65536]]
    {
        let made = relisted(vectors, &of_16(16, PLACES).table(), lists);
        zone(vectors, &made, 65535, 16);
    }
    for lists in [[65537; 3], [65536, 65535, 65536], [65535; 3]] {
        relisted(vectors, &of_16(16, PLACES).table(), lists);
    }
    let all = risen(vectors, of_16(16, 65536));
    let prefixes =
        [(0, 16), (65535, 16), (65534, 15), (65280, 8), (0, 0), (65535, 15), (65536, 16), (0, 17), (131071, 17)];
    for (prefix, length) in prefixes {
        zone(vectors, &all, prefix, length);
    }
    // The first half of the addresses of 17 bits: zones behind the last entry.
    let half = risen(vectors, rising(17, 65536, 17));
    for (prefix, length) in [(65535, 17), (65536, 17), (131071, 17), (65536, 1), (65534, 16)] {
        zone(vectors, &half, prefix, length);
    }
    // Entries with bits left below them: zones between two of them.
    let apart = risen(vectors, of_16(32, 65536));
    for (prefix, length) in [(4294836224, 17), (4294901760, 17), (4294901760, 16), (4294967295, 32), (4294836224, 15)] {
        zone(vectors, &apart, prefix, length);
    }
}

/// Faults of one entry among the most: at the last index, at a middle one, at the first ones, and with an entry too many.
fn faults(vectors: &mut Vectors) {
    let of_32 = |entries, length| rising(32, entries, length);
    // Values of 15 bits are too large from index 32,768 on; those of 17 or 20 bits lie below those of 16 that come before them.
    for (first, second) in [
        (of_32(65537, 15), of_32(65535, 16)),
        (of_32(65537, 17), of_32(65535, 16)),
        (of_32(65537, 20), of_32(40000, 16)),
        (of_32(65537, 15), of_32(40000, 16)),
    ] {
        risen(vectors, first);
        risen(vectors, second);
        let made = over(first, second);
        for n in [65535, 65536, 65537] {
            let made = relisted(vectors, &made, [n; 3]);
            zone(vectors, &made, 0, 32);
        }
    }
    for entries in [&[(1, 16, 1)][..], &[(0, 33, 1)], &[(0, 16, 0)], &[(0, 16, 65535)], &[(0, 16, 1), (0, 16, 2)]] {
        for n in [65536, 65537] {
            let mut made = risen(vectors, of_32(n, 16));
            let given: String = entries.iter().map(|(value, length, hop)| format!(" {value}/{length}>{hop}")).collect();
            for (i, (value, length, hop)) in entries.iter().enumerate() {
                (made.value[i], made.length[i], made.hop[i]) = (*value, *length, *hop);
            }
            let line = format!("table width 32 links {LINKS} lists {n} {n} {n} entries {}:{given}", entries.len());
            checked(vectors, line, &made);
        }
    }
    for (width, length) in
        [(0, 0), (33, 16), (4294967295, 0), (4294967295, 255), (16, 17), (15, 15), (32, 0), (1, 1), (20, 255)]
    {
        risen(vectors, rising(width, 65536, length));
    }
}

/// Small widths more often than large ones: there prefixes meet.
pub(super) fn width(random: &mut Random) -> u32 {
    match random.within(0, 9) {
        0..=4 => random.within(1, 6) as u32,
        5..=7 => random.within(7, 31) as u32,
        _ => 32,
    }
}

/// A prefix to ask about: an entry, one near an entry, or any; some malformed.
fn asked(random: &mut Random, table: &Table, width: u32) -> (u32, u8) {
    let n = table.value.len().min(table.length.len());
    let near = if n > 0 { random.within(0, n as u64 - 1) as usize } else { 0 };
    let good = |length: u8| length as u32 <= width;
    let mut prefix = match random.within(0, 3) {
        0 if n > 0 => (table.value[near], table.length[near]),
        1 | 2 if n > 0 && good(table.length[near]) => random.relative(width, (table.value[near], table.length[near])),
        _ => random.prefix(width, 0, width),
    };
    if random.one_in(8) {
        match random.within(0, 2) {
            0 => prefix.1 = random.within(width as u64 + 1, 255) as u8,
            1 => prefix.0 = prefix.0.wrapping_add(1 << random.within(0, 31)),
            _ => prefix.0 = random.next() as u32,
        }
    }
    prefix
}

fn sound(vectors: &mut Vectors, random: &mut Random) {
    for _ in 0..330 {
        let width = width(random);
        let n = random.within(0, 14) as usize;
        let made = links::any(random, width, n);
        table(vectors, &made);
        for _ in 0..3 {
            let (prefix, length) = asked(random, &made, width);
            zone(vectors, &made, prefix, length);
        }
        let a = asked(random, &made, width);
        let b = asked(random, &made, width);
        shared(vectors, width, a, b);
    }
}

/// How many kinds of fault `damaged` knows.
pub(super) const FAULTS: u64 = 9;

/// One of the three lists made shorter or longer.
fn unequal(random: &mut Random, made: &mut Table) {
    match random.within(0, 5) {
        0 => drop(made.value.pop()),
        1 => drop(made.length.pop()),
        2 => drop(made.hop.pop()),
        3 => made.value.push(4294967295),
        4 => made.length.push(0),
        _ => made.hop.push(1),
    }
}

/// One thing wrong with a good table of at least two entries, and its name.
pub(super) fn damaged(random: &mut Random, made: &mut Table, kind: u64) -> &'static str {
    let n = made.value.len() as u64;
    let i = random.within(0, n - 1) as usize;
    match kind {
        0 => {
            made.width = [0, 33, 40, 256, 65536, 4294967295][random.within(0, 5) as usize];
            "damage width"
        }
        1 => {
            unequal(random, made);
            "damage lists unequal"
        }
        2..=4 => damaged_prefix(random, made, i, kind),
        5 => {
            made.hop[i] = 0;
            "damage hop 0"
        }
        6 => {
            made.value.insert(i, made.value[i]);
            made.length.insert(i, made.length[i]);
            made.hop.insert(i, 7);
            "damage entry twice"
        }
        7 => {
            let i = i.max(1);
            made.value.swap(i - 1, i);
            made.length.swap(i - 1, i);
            "damage entries exchanged"
        }
        _ => {
            made.hop[i] = made.hop[i].min(65534);
            made.links = made.hop[i].saturating_sub(1);
            "damage too few links"
        }
    }
}

fn damaged_prefix(random: &mut Random, made: &mut Table, i: usize, kind: u64) -> &'static str {
    let width = made.width as u64;
    match kind {
        2 => {
            made.length[i] = random.within(width + 1, 255) as u8;
            "damage length above the width"
        }
        3 => {
            made.value[i] |= 1 << random.within(width, 31);
            "damage value too large"
        }
        _ => {
            made.length[i] = random.within(0, width - 1) as u8;
            let past = width - made.length[i] as u64;
            made.value[i] =
                cut(width as u32, made.value[i] as u64, made.length[i] as u32) | 1 << random.within(0, past - 1);
            "damage bit past the length"
        }
    }
}

fn broken(vectors: &mut Vectors, random: &mut Random) {
    for turn in 0..360 {
        let kind = turn % FAULTS;
        let mut width = width(random);
        if kind == 3 {
            width = width.min(31);
        }
        let n = random.within(6, 14) as usize;
        let mut made = links::any(random, width, n);
        if made.value.len() < 2 {
            continue;
        }
        let what = damaged(random, &mut made, kind);
        vectors.hit(what);
        assert!(made.check().is_err(), "{what} did no damage");
        // Half of them are damaged twice: the first test in 01's order decides.
        if random.one_in(2)
            && made.width == width
            && made.value.len() == made.length.len()
            && made.value.len() == made.hop.len()
        {
            let second = random.within(0, FAULTS - 1);
            if second != 3 || width < 32 {
                damaged(random, &mut made, second);
            }
        }
        table(vectors, &made);
        let (prefix, length) = asked(random, &made, width);
        zone(vectors, &made, prefix, length);
    }
}

/// Shared lengths of prefixes near each other, at good and bad widths.
fn pairs(vectors: &mut Vectors, random: &mut Random) {
    for _ in 0..300 {
        let width = width(random);
        let a = random.prefix(width, 0, width);
        let b = if random.one_in(4) { random.prefix(width, 0, width) } else { random.relative(width, a) };
        let asked = if random.one_in(12) { [0, 33, 4294967295][random.within(0, 2) as usize] } else { width };
        shared(vectors, asked, a, b);
    }
}

/// At every width a value beside itself, and beside one that differs from it in one bit, at each place: both of all W bits, one
/// of them cut right behind that bit (the difference decides), and right before it (the shorter length does). At every other
/// place it is the second prefix that is cut.
fn one_bit(vectors: &mut Vectors, random: &mut Random) {
    for width in 1..=32 {
        for value in [0, u64::MAX] {
            let whole = (cut(width, value, width), width as u8);
            shared(vectors, width, whole, whole);
        }
        for place in 0..width {
            let value = random.next();
            let other = (cut(width, value ^ 1 << (width - 1 - place), width), width as u8);
            let lengths = if place + 1 < width { vec![width, place + 1, place] } else { vec![width, place] };
            for length in lengths {
                let one = (cut(width, value, length), length as u8);
                let (a, b) = if place % 2 == 0 { (one, other) } else { (other, one) };
                shared(vectors, width, a, b);
            }
        }
    }
}

pub fn write(top: &str) {
    let mut vectors = Vectors::default();
    let mut random = Random::new(3);
    eight_prefixes(&mut vectors);
    edges(&mut vectors);
    large(&mut vectors, &mut random);
    most(&mut vectors);
    faults(&mut vectors);
    linked::hops(&mut vectors);
    linked::most(&mut vectors);
    sound(&mut vectors, &mut random);
    broken(&mut vectors, &mut random);
    pairs(&mut vectors, &mut random);
    one_bit(&mut vectors, &mut random);
    vectors.write(top, "table_cases", WANTED, &["check", "zone"]);
}
