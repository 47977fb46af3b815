//! A file of routes, a line a route: a prefix, blanks, a hop. What follows `#` is a comment; the lines may stand in any order.
//!
//! What is no prefix or no hop, and a route that stands twice, is refused here, by its line: the library would name it, if at all, by an
//! index in the sorted table. The rest is the library's to judge.

use std::collections::HashMap;

use hongsamuk::{Table, WIDTH};

use crate::dotted::{hop, Prefix};
use crate::shown::counted;
use crate::{files, Problem};

/// A file of routes, and how many links the gateway has.
#[derive(PartialEq, Eq, Debug)]
pub struct TableFile {
    pub file: String,
    pub links: u16,
}

pub struct Route {
    pub prefix: Prefix,
    pub hop: u16,
    /// Where it stands in its file, from 1.
    pub line: usize,
}

/// A file's routes in the library's order, which is its entries' order.
pub struct Routes {
    /// The file, as messages call it.
    pub name: String,
    /// The same without its folders.
    last_name: String,
    /// How many links the gateway has.
    pub links: u16,
    pub routes: Vec<Route>,
    value: Vec<u32>,
    length: Vec<u8>,
    hop: Vec<u16>,
}

impl Routes {
    pub fn read(table: &TableFile) -> Result<Routes, Problem> {
        let routes = Routes::parse(&files::name(&table.file), table.links, &files::read(&table.file)?)?;
        Ok(Routes { last_name: files::last_name(&table.file), ..routes })
    }

    pub fn parse(name: &str, links: u16, text: &[u8]) -> Result<Routes, Problem> {
        let mut routes: Vec<Route> = Vec::new();
        let mut lines = HashMap::new();
        // Some editors begin a file with this mark.
        let text = text.strip_prefix(b"\xef\xbb\xbf").unwrap_or(text);
        for (i, bytes) in text.split(|byte| *byte == b'\n').enumerate() {
            let line = i + 1;
            let at_line = |problem: Problem| problem.at(format!("{name}, line {line}"));
            let Some((prefix, hop)) = route(bytes).map_err(at_line)? else { continue };
            if let Some(earlier) = lines.insert(prefix, line) {
                return Err(at_line(Problem(format!("{prefix} stands twice, first in line {earlier}"))));
            }
            routes.push(Route { prefix, hop, line });
        }
        routes.sort_by_key(|route| route.prefix);
        let value = routes.iter().map(|route| route.prefix.first()).collect();
        let length = routes.iter().map(|route| route.prefix.length()).collect();
        let hop = routes.iter().map(|route| route.hop).collect();
        Ok(Routes { name: name.into(), last_name: name.into(), links, routes, value, length, hop })
    }

    /// What a picture of the table is called.
    pub fn title(&self) -> String {
        format!("{}, {}", self.last_name, counted(self.routes.len() as u64, "route"))
    }

    /// The table as it is lent to the library.
    pub fn table(&self) -> Table<'_> {
        Table { width: WIDTH, links: self.links, value: &self.value, length: &self.length, hop: &self.hop }
    }
}

/// What one line says; nothing where it is blank or a comment.
fn route(line: &[u8]) -> Result<Option<(Prefix, u16)>, Problem> {
    let said = line.split(|byte| *byte == b'#').next().unwrap_or_default();
    let said = std::str::from_utf8(said).map_err(|_| Problem("this is no text".into()))?;
    let mut words = said.split_ascii_whitespace();
    match (words.next(), words.next(), words.next()) {
        (None, ..) => Ok(None),
        (Some(prefix), Some(next_hop), None) => Ok(Some((prefix.parse()?, hop(next_hop)?))),
        (Some(prefix), None, _) => {
            prefix.parse::<Prefix>().and_then(|prefix| Err(Problem(format!("{prefix} has no hop"))))
        }
        (Some(_), Some(_), Some(_)) => Err(Problem("this is more than a prefix and a hop".into())),
    }
}
