//! How fast the archive is, beside plain Rust that does the same; the tables of docs/SPEED.md.

mod bitmaps;
mod building;
mod counting;
mod firewall;
mod lookups;
mod plain;
mod rounds;
mod routes;
mod rules;

use routes::Routes;

const ENTRIES: usize = 4096;
/// Routes of all 32 bits in the second table of the memory measure.
const HOSTS: usize = 64;
const SEED: u64 = 7;

fn main() {
    let words: Vec<String> = std::env::args().skip(1).collect();
    let all = words.is_empty();
    let asked = |name: &str| all || words.iter().any(|word| word == name);
    let routes = Routes::new(ENTRIES, 0, SEED);
    if asked("lookups") {
        println!("\n### Lookups\n");
        lookups::measure(&routes);
    }
    if asked("discards") {
        println!("\n### Lookups, one route in eight discards\n");
        lookups::measure(&routes.discarding(SEED));
    }
    if asked("builds") {
        println!("\n### Builds of {ENTRIES} routes\n");
        building::measure(&routes);
    }
    if asked("growth") {
        println!("\n### Growth\n");
        building::growth(SEED);
    }
    if asked("counting") {
        println!("\n### Check and count\n");
        counting::measure(SEED);
    }
    if asked("rules") {
        println!("\n### Rules of two fields\n");
        rules::measure(SEED);
    }
    if asked("memory") {
        println!("\n### Elements, {ENTRIES} routes of at most 24 bits\n");
        building::memory(&routes);
        println!("\n### Elements, {ENTRIES} routes, {HOSTS} of them with 32 bits\n");
        building::memory(&Routes::new(ENTRIES, HOSTS, SEED));
    }
}
