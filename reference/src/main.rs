//! `reference vectors` writes the inputs and expected outputs of the programs under crates/ that run in
//! the gate; `reference tablet` is the tablet program.

use reference::{tablet, vectors};
use std::io::{Read, Write};

fn main() {
    let words: Vec<String> = std::env::args().skip(1).collect();
    match words.iter().map(String::as_str).collect::<Vec<_>>()[..] {
        ["vectors", top] => vectors::write_all(top),
        ["tablet"] => {
            let mut text = vec![];
            std::io::stdin().read_to_end(&mut text).expect("standard input can be read");
            print!("{}", tablet::run(&text));
            std::io::stdout().flush().expect("standard output can be written");
        }
        _ => {
            eprintln!("usage: reference vectors REPOSITORY | reference tablet < TEXT");
            std::process::exit(2);
        }
    }
}
