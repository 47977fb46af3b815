//! Rules at their limits: the most elements over all tries, 33 nested destinations with every level limit, and 1,024 rules.

use crate::large::{few, links};
use crate::rules::{exact, needed};
use crate::trying::{Same, Trial};
use reference::build::ELEMENTS;
use reference::choices::Kind;
use reference::random::{cut, Random};
use reference::rules::{Rule, RuleRecord, Rules, RULES};
use reference::table::{fewest_links, Refusal};

const KINDS: [Kind; 2] = [Kind::Fixed, Kind::Variable];
/// Rows of each element list of the rules below; some builds need more and are refused.
const ROWS: usize = 1 << 20;

fn told((refusal, record): (Refusal, RuleRecord)) -> String {
    match refusal.number {
        0 => format!("E = {}, of the destinations {}", record.elements, record.dest.elements),
        number => format!("refused by {number}, detail {}", refusal.detail),
    }
}

/// The E of all tries at the limit is accepted where the four lists have as many rows. Two more, the destinations', are refused.
fn limits(trial: &mut Trial) -> Same {
    let most = ELEMENTS as usize;
    let short = [most, most, most - 1, most];
    for (bits, rows) in [(0, [most; 4]), (0, [most - 1; 4]), (0, short), (1, [2 * most; 4])] {
        for (turn, kind) in (0..).zip(KINDS) {
            let rules = Rules::of(24, &[(0, bits, 5, 24, 7)]).with_links(links(&[7], turn));
            let (words, _, list) = exact(&needed(kind, 1, &rules));
            let answer = trial.rules_over(&rules, kind, 1, (words, rows, list))?;
            println!(
                "{kind:?}, a destination of {bits} bits, a source of 24, k = 1, {rows:?} rows lent: {}",
                told(answer)
            );
        }
    }
    Ok(())
}

/// Rules over lists just long enough, or of as many rows as are lent here; then with scratch one word, the rows one, or the list
/// of tries one number short; then with one link less than their actions need.
fn tried(trial: &mut Trial, name: &str, rules: &Rules, kind: Kind, levels: u32) -> Same {
    let case = format!("{name}, {kind:?}, k = {levels}");
    let lacking = rules.with_links(fewest_links(&rules.action) - 1);
    let rules = &rules.with_links(links(&rules.action, levels));
    let (words, rows, list) = exact(&needed(kind, levels, rules));
    let rows = rows.map(|rows| rows.min(ROWS));
    let answer =
        trial.rules_over(rules, kind, levels, (words, rows, list)).map_err(|text| format!("{case}: {text}"))?;
    println!("{case}: {}", told(answer));
    let fewer = rows.map(|rows| rows.saturating_sub(1));
    for lent in [(words - 1, rows, list), (words, fewer, list), (words, rows, list - 1), (words, fewer, list - 1)] {
        trial.rules_over(rules, kind, levels, lent).map_err(|text| format!("{case}, {lent:?}: {text}"))?;
    }
    let told = |text| format!("{case}, {} links: {text}", lacking.links);
    trial.rules_over(&lacking, kind, levels, (words, rows, list)).map(|_| ()).map_err(told)
}

/// Destinations of 0 to 32 bits of one address, each with a source of 32 bits. That of the shortest is not that of the others.
fn nested(random: &mut Random) -> Rules {
    let (address, source) = (random.next(), random.next() as u32);
    let rule = |l: u32| (cut(32, address, l), l as u8, source ^ (l == 0) as u32, 32, few(random.hop()));
    let mut rules: Vec<Rule> = (0..=32).map(rule).collect();
    rules.sort();
    Rules::of(32, &rules)
}

/// The first 1,024 of more rules.
fn first(rules: Rules) -> Rules {
    let of = |i: usize| {
        let (dest, source) = (rules.dest_value[i], rules.source_value[i]);
        (dest, rules.dest_length[i], source, rules.source_length[i], few(rules.action[i]))
    };
    Rules::of(rules.width, &(0..RULES).map(of).collect::<Vec<Rule>>())
}

pub fn run(trial: &mut Trial, random: &mut Random) -> Same {
    limits(trial)?;
    let chain = nested(random);
    for (kind, levels) in KINDS.into_iter().flat_map(|kind| (2..=32).map(move |levels| (kind, levels))) {
        tried(trial, "33 nested destinations", &chain, kind, levels)?;
    }
    let any = first(random.rules(32, 4 * RULES));
    let mut of = |place: &dyn Fn(u32) -> (u32, u8, u32, u8)| {
        let rule = |i| (place(i).0, place(i).1, place(i).2, place(i).3, few(random.hop()));
        Rules::of(32, &(0..RULES as u32).map(rule).collect::<Vec<Rule>>())
    };
    let lists = [
        ("as many destinations", of(&|i| (i << 22, 10, (i & 1) << 31, 1))),
        ("one destination", of(&|i| (1 << 31, 1, i << 22, 10))),
        ("32 destinations of 32 sources", of(&|i| ((i / 32) << 27, 5, (i % 32) << 27, 5))),
        ("hosts", of(&|i| (i << 22 | 5, 32, i << 12 | 7, 32))),
        ("any lengths", any),
    ];
    for (name, rules) in lists {
        for (kind, levels) in KINDS.into_iter().flat_map(|kind| [1, 2, 3, 5, 8, 32].map(move |levels| (kind, levels))) {
            tried(trial, &format!("{} rules: {name}", rules.count()), &rules, kind, levels)?;
        }
    }
    Ok(())
}
