//! Rules to be tried: random ones, nested destinations, one destination, one source, the most rules; some damaged, some of any
//! numbers.

use crate::harm::pick;
use crate::tables;
use reference::random::{cut, Random};
use reference::rules::{Rule, Rules, RULES};

/// Rules of a small list.
const SMALL: u64 = 12;
/// Every so many lists one has as many rules as there may be, or one more.
const LONG: u64 = 1 << 9;

fn of(width: u32, mut rules: Vec<((u32, u8), (u32, u8))>, random: &mut Random) -> Rules {
    rules.sort();
    rules.dedup();
    let rule = |(d, s): &((u32, u8), (u32, u8))| (d.0, d.1, s.0, s.1, random.hop());
    Rules::of(width, &rules.iter().map(rule).collect::<Vec<Rule>>())
}

/// Destinations that begin one address, each nested in the one before, with few sources, so that many tries are visited.
fn chain(width: u32, n: u64, random: &mut Random) -> Rules {
    let address = random.next();
    let sources: Vec<(u32, u8)> = (0..random.within(1, 3)).map(|_| random.prefix(width, 1, width.min(6))).collect();
    let lengths: Vec<u32> = (0..n).map(|_| random.within(0, width as u64) as u32).collect();
    let rules = lengths.iter().map(|l| ((cut(width, address, *l), *l as u8), pick(random, &sources))).collect();
    of(width, rules, random)
}

/// All 33 destinations that begin an address of 32 bits. Those up to some length have one source, the others have another.
fn whole_chain(random: &mut Random) -> Rules {
    let (address, last) = (random.next(), random.within(0, 32) * random.within(0, 1));
    let (first, second) = (random.prefix(32, 1, 32), random.prefix(32, 1, 32));
    let source = |l: u32| if u64::from(l) <= last { first } else { second };
    of(32, (0..=32).map(|l| ((cut(32, address, l), l as u8), source(l))).collect(), random)
}

/// One destination with many sources, or the other way round.
fn one(width: u32, n: u64, random: &mut Random) -> Rules {
    let (alone, many) = (random.prefix(width, 0, width), random.table(width, n as usize));
    let dest = random.one_in(2);
    let rule = |other: (u32, u8)| if dest { (alone, other) } else { (other, alone) };
    of(width, many.value.into_iter().zip(many.length).map(rule).collect(), random)
}

fn sound(random: &mut Random) -> Rules {
    let (width, n) = (tables::width(random), random.within(0, SMALL));
    match random.within(0, 31) {
        0 => whole_chain(random),
        1..=4 => chain(width, n, random),
        5..=8 => one(width, n, random),
        _ => random.rules(width, n as usize),
    }
}

/// One of the five lists made longer or shorter.
fn unequal(rules: &mut Rules, random: &mut Random) {
    let (shorter, any) = (random.one_in(2), random.next());
    match random.within(0, 4) {
        0 if shorter => drop(rules.dest_value.pop()),
        1 if shorter => drop(rules.dest_length.pop()),
        2 if shorter => drop(rules.source_value.pop()),
        3 if shorter => drop(rules.source_length.pop()),
        4 if shorter => drop(rules.action.pop()),
        0 => rules.dest_value.push(any as u32),
        1 => rules.dest_length.push(any as u8),
        2 => rules.source_value.push(any as u32),
        3 => rules.source_length.push(any as u8),
        _ => rules.action.push(any as u16),
    }
}

/// Two rules exchanged, whole, or their destinations alone, or their sources.
fn exchange(rules: &mut Rules, i: usize, j: usize, random: &mut Random) {
    let (dests, sources) = pick(random, &[(true, true), (true, false), (false, true)]);
    if dests {
        rules.dest_value.swap(i, j);
        rules.dest_length.swap(i, j);
    }
    if sources {
        rules.source_value.swap(i, j);
        rules.source_length.swap(i, j);
    }
}

/// One thing made wrong, at any rule.
fn damage(rules: &mut Rules, random: &mut Random) {
    let n = rules.lengths().into_iter().min().unwrap_or(0) as u64;
    if n == 0 {
        rules.width = pick(random, &[0, 33, 64, 263, u32::MAX]);
        return;
    }
    let (i, j) = (random.within(0, n - 1) as usize, random.within(0, n - 1) as usize);
    let bit = 1 << random.within(0, 31);
    match random.within(0, 11) {
        0 => rules.width = pick(random, &[0, 33, 64, 263, u32::MAX]),
        1 => rules.width = random.within(1, 32) as u32,
        2 => rules.action[i] = 0,
        3 => rules.dest_length[i] = random.next() as u8,
        4 => rules.source_length[i] = random.next() as u8,
        5 => rules.dest_value[i] ^= bit,
        6 => rules.source_value[i] ^= bit,
        7 => exchange(rules, i, j, random),
        8 => (rules.dest_value[i], rules.dest_length[i]) = (rules.dest_value[j], rules.dest_length[j]),
        9 => (rules.source_value[i], rules.source_length[i]) = (rules.source_value[j], rules.source_length[j]),
        10 => {
            (rules.dest_value[i], rules.dest_length[i]) = (rules.dest_value[j], rules.dest_length[j]);
            (rules.source_value[i], rules.source_length[i]) = (rules.source_value[j], rules.source_length[j]);
        }
        _ => unequal(rules, random),
    }
}

/// Good rules, n of them: of as many destinations, or of one.
fn long(n: usize, random: &mut Random) -> Rules {
    let (width, apart) = (random.within(11, 32) as u32, random.one_in(2));
    let rule = |i: u32| match apart {
        true => ((i << (width - 11), 11), ((i & 1) << (width - 1), 1)),
        false => ((0, 1), (i << (width - 11), 11)),
    };
    of(width, (0..n as u32).map(rule).collect(), random)
}

/// Rules of any numbers.
fn noise(random: &mut Random) -> Rules {
    let rule = |random: &mut Random| {
        let (length, other) = (random.within(0, 33) as u8, random.within(0, 33) as u8);
        (random.next() as u32, length, random.next() as u32, other, random.next() as u16)
    };
    let rules: Vec<Rule> = (0..random.within(0, SMALL)).map(|_| rule(random)).collect();
    Rules::of(random.within(0, 33) as u32, &rules)
}

/// Rules of any kind, with any number of links.
pub fn any(random: &mut Random) -> Rules {
    let mut rules = any_rules(random);
    rules.links = tables::links(&rules.action, random);
    rules
}

fn any_rules(random: &mut Random) -> Rules {
    if random.one_in(LONG) {
        let n = if random.one_in(2) { RULES } else { RULES + 1 };
        return long(n, random);
    }
    if random.one_in(32) {
        return noise(random);
    }
    let mut rules = sound(random);
    if random.one_in(5) {
        damage(&mut rules, random);
        if random.one_in(3) {
            damage(&mut rules, random);
        }
    }
    rules
}
