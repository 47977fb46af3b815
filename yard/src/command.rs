//! The command line: which command, of what, with which options.

use hongsamuk::{Kind, LINKS};

use crate::arrays::{How, Strides};
use crate::dotted::{address, cut, number};
use crate::routes::TableFile;
use crate::{files, Problem};

pub const USAGE: &str = "\
yard lookup TABLE ADDRESS... [--kind KIND] [--levels K] [--links N]
    the hop of each address, the prefix that won, and the blocks read
yard compare TABLE [--links N] [--svg FILE]
    every kind and number of levels side by side: sizes, reads, times, as a chart too; one table, one answer
yard draw TABLE [ADDRESS] --svg FILE [--kind KIND] [--levels K] [--links N]
    the blocks of a table of at most 64 routes, and an address's path through them
yard sheet TABLE ADDRESS... [--kind KIND] [--levels K] [--links N]
    the tablet's text of the same table and addresses
yard read REPORT
    the tablet's report in dotted words

TABLE is a file with a line a route: 10.20.0.0/16 3, or 10.20.0.0/16 discard; # begins a comment. ADDRESS is dotted.
TABLE and REPORT may be -, standard input.

KIND is fst (fixed strides), vst (variable ones; taken where none is said) or, for lookup, bitmap. K is the most levels, 4
where none is said; a bitmap has none. N is how many links the gateway has, 65535 where none is said: then no hop is
refused but 0.
";

/// The levels where none are said.
const USUAL_LEVELS: u16 = 4;

const KIND_OPTION: &str = "--kind";
const LEVELS_OPTION: &str = "--levels";
const LINKS_OPTION: &str = "--links";
const SVG_OPTION: &str = "--svg";
const BITMAP: &str = "bitmap";
const HELP: [&str; 3] = ["help", "--help", "-h"];

#[derive(PartialEq, Eq, Debug)]
pub enum Command {
    Help,
    Lookup { table: TableFile, how: How, addresses: Vec<u32> },
    Compare { table: TableFile, svg: Option<String> },
    Draw { table: TableFile, strides: Strides, address: Option<u32>, svg: String },
    Sheet { table: TableFile, strides: Strides, addresses: Vec<u32> },
    Read { report: String },
}

impl Command {
    pub fn parse(words: &[String]) -> Result<Command, Problem> {
        let Some((name, rest)) = words.split_first() else {
            return Err(Problem(format!("no command: {COMMANDS}")));
        };
        if HELP.contains(&name.as_str()) || rest.iter().any(|word| HELP[1..].contains(&word.as_str())) {
            return Ok(Command::Help);
        }
        let building = [KIND_OPTION, LEVELS_OPTION, LINKS_OPTION];
        match name.as_str() {
            "lookup" => lookup(Given::parse(name, rest, &building)?),
            "compare" => compare(Given::parse(name, rest, &[LINKS_OPTION, SVG_OPTION])?),
            "draw" => draw(Given::parse(name, rest, &[&building[..], &[SVG_OPTION]].concat())?),
            "sheet" => sheet(Given::parse(name, rest, &building)?),
            "read" => read(Given::parse(name, rest, &[])?),
            _ => Err(Problem(format!("no command is called '{}': {COMMANDS}", cut(name)))),
        }
    }
}

const COMMANDS: &str = "lookup, compare, draw, sheet or read (yard help says more)";

fn lookup(given: Given) -> Result<Command, Problem> {
    Ok(Command::Lookup { table: given.table()?, how: given.how()?, addresses: given.addresses()? })
}

fn compare(given: Given) -> Result<Command, Problem> {
    given.at_most(1)?;
    let table = given.table()?;
    let svg = given.picture_file(&table)?;
    Ok(Command::Compare { table, svg })
}

fn draw(given: Given) -> Result<Command, Problem> {
    given.at_most(2)?;
    let table = given.table()?;
    let address = given.words.get(1).map(|word| address(word)).transpose()?;
    let svg = given.picture_file(&table)?;
    let svg = svg.ok_or_else(|| given.problem("no file for the picture is named: say --svg FILE".into()))?;
    let strides = given.strides("a bitmap has no blocks")?;
    Ok(Command::Draw { table, strides, address, svg })
}

fn sheet(given: Given) -> Result<Command, Problem> {
    let strides = given.strides("the tablet knows no bitmap")?;
    Ok(Command::Sheet { table: given.table()?, strides, addresses: given.addresses()? })
}

fn read(given: Given) -> Result<Command, Problem> {
    given.at_most(1)?;
    Ok(Command::Read { report: given.first("report")?.into() })
}

/// What follows a command's name: words, and options with their values.
struct Given<'a> {
    command: &'a str,
    words: Vec<&'a str>,
    options: Vec<(&'a str, &'a str)>,
}

impl<'a> Given<'a> {
    fn parse(command: &'a str, rest: &'a [String], known: &[&str]) -> Result<Given<'a>, Problem> {
        let mut given = Given { command, words: Vec::new(), options: Vec::new() };
        let mut rest = rest.iter().map(String::as_str);
        while let Some(word) = rest.next() {
            if !word.starts_with("--") {
                given.words.push(word);
                continue;
            }
            let (option, value) = word.split_once('=').map_or((word, None), |(option, value)| (option, Some(value)));
            if !known.contains(&option) {
                return Err(given.problem(format!("it takes no option {} (yard help says more)", cut(option))));
            }
            let value = value.or_else(|| rest.next()).filter(|value| !value.is_empty() && !value.starts_with("--"));
            let Some(value) = value else { return Err(given.problem(format!("{option} has no value"))) };
            if given.option(option).is_some() {
                return Err(given.problem(format!("{option} stands twice")));
            }
            given.options.push((option, value));
        }
        Ok(given)
    }

    fn problem(&self, text: String) -> Problem {
        Problem(text).at(self.command)
    }

    fn option(&self, name: &str) -> Option<&'a str> {
        self.options.iter().find(|(option, _)| *option == name).map(|(_, value)| *value)
    }

    /// The number that an option says, or the one taken where it is not said. Numbers up to 65,535 are the library's to judge.
    fn number(&self, name: &str, otherwise: u16) -> Result<u16, Problem> {
        let Some(text) = self.option(name) else { return Ok(otherwise) };
        number(text, u16::MAX.into()).map(|said| said as u16).map_err(|problem| problem.at(name).at(self.command))
    }

    fn first(&self, what: &str) -> Result<&'a str, Problem> {
        self.words.first().copied().ok_or_else(|| self.problem(format!("no file of a {what} is named")))
    }

    fn at_most(&self, count: usize) -> Result<(), Problem> {
        match self.words.get(count) {
            None => Ok(()),
            Some(word) => Err(self.problem(format!("'{}' is one word too many", cut(word)))),
        }
    }

    fn table(&self) -> Result<TableFile, Problem> {
        Ok(TableFile { file: self.first("table")?.into(), links: self.number(LINKS_OPTION, LINKS)? })
    }

    /// The file for a picture, where one is named; it must not be the table's own.
    fn picture_file(&self, table: &TableFile) -> Result<Option<String>, Problem> {
        let Some(svg) = self.option(SVG_OPTION) else { return Ok(None) };
        if svg == files::STANDARD_INPUT {
            return Err(self.problem("a picture goes to a file: - is none".into()));
        }
        if files::is_same(svg, &table.file) {
            return Err(self.problem("the picture would be written over the table".into()));
        }
        Ok(Some(svg.into()))
    }

    fn addresses(&self) -> Result<Vec<u32>, Problem> {
        if self.words.len() < 2 {
            return Err(self.problem("no address is asked for".into()));
        }
        self.words[1..].iter().map(|word| address(word)).collect()
    }

    /// Strides, where a bitmap will not do.
    fn strides(&self, why: &str) -> Result<Strides, Problem> {
        if self.option(KIND_OPTION) == Some(BITMAP) {
            return Err(self.problem(format!("{why}: say --kind fst or vst")));
        }
        self.kind_of_strides()
    }

    fn how(&self) -> Result<How, Problem> {
        match (self.option(KIND_OPTION), self.option(LEVELS_OPTION)) {
            (Some(BITMAP), Some(_)) => Err(self.problem("a bitmap has no levels: leave --levels out".into())),
            (Some(BITMAP), None) => Ok(How::Bitmap),
            _ => self.kind_of_strides().map(How::Elements),
        }
    }

    fn kind_of_strides(&self) -> Result<Strides, Problem> {
        let kind = match self.option(KIND_OPTION) {
            Some("fst") => Kind::Fixed,
            Some("vst") | None => Kind::Variable,
            Some(other) => return Err(self.problem(format!("'{}' is no kind: fst, vst or bitmap", cut(other)))),
        };
        Ok(Strides { kind, levels: self.number(LEVELS_OPTION, USUAL_LEVELS)?.into() })
    }
}
