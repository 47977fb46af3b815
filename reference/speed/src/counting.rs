//! What a build does before it makes the trie: it checks the table and counts the nodes.

use crate::building::{archive, in_plain_rust, outcome, plain_table, table, Rows, K, SIZES};
use crate::rounds::{alternate, Timed};
use crate::routes::Routes;
use hongsamuk::Kind;

const ROUNDS: usize = 101;

fn row(work: &str, n: usize, timed: &Timed) {
    let microseconds = |nanoseconds: f64| nanoseconds / 1e3;
    let (ours, theirs) = (microseconds(timed.first), microseconds(timed.second));
    println!("| {work} | {n} | {ours:.1} | {theirs:.1} | {:.2} |", timed.ratio);
}

/// The check alone; then a build that is lent no scratch, which is refused by 6 once the nodes are counted.
pub fn measure(seed: u64) {
    println!("| Work | n | Archive, µs | Plain Rust, µs | Ratio |");
    println!("|---|---|---|---|---|");
    for n in SIZES {
        let routes = Routes::new(n, 0, seed);
        let checked = || hongsamuk::check(table(&routes));
        row("Check", n, &alternate(ROUNDS, checked, || outcome(plain_table(&routes).check())));
        let counted = || archive(Kind::Fixed, K, &routes, &mut [], &mut Rows::new(0));
        let plainly = || in_plain_rust(Kind::Fixed, K, &routes, &mut [], &mut Rows::new(0));
        row("Check and count", n, &alternate(ROUNDS, counted, plainly));
    }
}
