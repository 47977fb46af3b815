//! A front for people: routes and addresses in dotted form, answers in plain words and pictures.
//!
//! The proved library is the judge of every table and the source of every answer; this crate translates what people write, calls
//! the library through its safe Rust calls, and shows what it said. Only addresses of 32 bits have a dotted form.

pub mod arrays;
mod blocks;
mod chart;
mod command;
pub mod compare;
pub mod dotted;
mod draw;
mod files;
mod lookup;
mod picture;
mod places;
pub mod routes;
mod shown;
mod tablet;
mod words;

use std::fmt;

use command::Command;

/// What is wrong, in one line.
#[derive(Clone, PartialEq, Eq, Debug)]
pub struct Problem(pub String);

impl fmt::Display for Problem {
    fn fmt(&self, f: &mut fmt::Formatter) -> fmt::Result {
        f.write_str(&self.0)
    }
}

impl Problem {
    /// The same with the place before it, such as a file's name or line.
    pub fn at(self, place: impl fmt::Display) -> Problem {
        Problem(format!("{place}: {}", self.0))
    }
}

/// Runs one command: what it says on standard output. A picture is written to its file first, and only where nothing is wrong.
pub fn run(words: &[String]) -> Result<String, Problem> {
    match Command::parse(words)? {
        Command::Help => Ok(command::USAGE.into()),
        Command::Lookup { table, how, addresses } => lookup::run(&table, how, &addresses),
        Command::Compare { table, svg } => compare::run(&table, svg.as_deref()),
        Command::Draw { table, strides, address, svg } => draw::run(&table, strides, address, &svg),
        Command::Sheet { table, strides, addresses } => tablet::sheet(&table, strides, &addresses),
        Command::Read { report } => tablet::read(&report),
    }
}
