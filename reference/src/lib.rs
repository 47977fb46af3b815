//! An outside check of the project's definitions: the build's rules (01) and the requests that have landed
//! (02) written down once more, in plain Rust with the standard library only, literal rather than clever.
//! The program `reference` makes the vectors with it; `fuzz` holds the archive for C to it.

pub mod bitmap;
pub mod build;
pub mod choices;
#[cfg(test)]
mod examples;
pub mod lookup;
pub mod random;
pub mod rules;
pub mod table;
pub mod tablet;
pub mod trie;
pub mod vectors;
