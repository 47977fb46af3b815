//! Addresses, prefixes, hops and numbers as people write them, both ways: `10.20.30.40`, `10.20.0.0/16`, `3` or `discard`.

use std::fmt;
use std::net::Ipv4Addr;
use std::str::FromStr;

use hongsamuk::{DISCARD, WIDTH};

use crate::Problem;

const DISCARD_WORD: &str = "discard";
/// The most letters of what someone wrote that a message says again.
const MESSAGE_LETTERS: usize = 40;

/// A prefix: the first `length` bits of `value`, whose other bits are 0. The order is that of the library's tables.
#[derive(Clone, Copy, PartialEq, Eq, PartialOrd, Ord, Hash, Debug)]
pub struct Prefix {
    value: u32,
    length: u8,
}

impl Prefix {
    /// The first `length` bits of an address; all of them where there are fewer.
    pub fn of(address: u32, length: u8) -> Prefix {
        let length = length.min(WIDTH as u8);
        Prefix { value: address & !past(length), length }
    }

    pub fn length(self) -> u8 {
        self.length
    }

    /// The first address that begins with the prefix; as the library's value of an entry it is the prefix itself.
    pub fn first(self) -> u32 {
        self.value
    }

    /// The last address that begins with the prefix.
    pub fn last(self) -> u32 {
        self.value | past(self.length)
    }
}

/// All bits after the first `length`.
fn past(length: u8) -> u32 {
    u32::MAX.checked_shr(length.into()).unwrap_or(0)
}

impl fmt::Display for Prefix {
    fn fmt(&self, f: &mut fmt::Formatter) -> fmt::Result {
        write!(f, "{}/{}", dotted(self.value), self.length)
    }
}

impl FromStr for Prefix {
    type Err = Problem;

    fn from_str(text: &str) -> Result<Prefix, Problem> {
        let said = cut(text);
        let Some((start, bits)) = text.split_once('/') else {
            return Err(Problem(format!("'{said}' has no length: write a prefix as 10.20.0.0/16")));
        };
        let value = address(start)?;
        let length = number(bits, WIDTH.into()).map_err(|problem| problem.at(format!("the length of '{said}'")))?;
        let prefix = Prefix::of(value, length as u8);
        if prefix.value != value {
            return Err(Problem(format!("'{said}' has bits past its length: its first {length} bits are {prefix}")));
        }
        Ok(prefix)
    }
}

pub fn dotted(address: u32) -> String {
    Ipv4Addr::from(address).to_string()
}

pub fn address(text: &str) -> Result<u32, Problem> {
    let said = cut(text);
    let problem = || Problem(format!("'{said}' is no address: write four numbers from 0 to 255, as 10.20.30.40"));
    text.parse::<Ipv4Addr>().map(u32::from).map_err(|_| problem())
}

/// A hop as it is written: a number, or the word that discards.
pub fn hop(text: &str) -> Result<u16, Problem> {
    if text == DISCARD_WORD {
        return Ok(DISCARD);
    }
    let problem = |_| Problem(format!("'{}' is no hop: write the number of a link, or {DISCARD_WORD}", cut(text)));
    number(text, DISCARD.into()).map(|link| link as u16).map_err(problem)
}

/// A hop in a word.
pub fn hop_word(hop: u16) -> String {
    match hop {
        DISCARD => DISCARD_WORD.into(),
        link => link.to_string(),
    }
}

/// A hop in a phrase: `hop 3`, or the word that discards.
pub fn hop_phrase(hop: u16) -> String {
    match hop {
        DISCARD => DISCARD_WORD.into(),
        link => format!("hop {link}"),
    }
}

/// A number from 0 to `most`, in decimal digits without leading zeros.
pub fn number(text: &str, most: u64) -> Result<u64, Problem> {
    let is_plain = text.bytes().all(|byte| byte.is_ascii_digit()) && !text.is_empty();
    if !is_plain || (text.len() > 1 && text.starts_with('0')) {
        return Err(Problem(format!("'{}' is no number in digits without a leading zero", cut(text))));
    }
    let within = text.parse().ok().filter(|number| *number <= most);
    within.ok_or_else(|| Problem(format!("{} is above {}", cut(text), grouped(most))))
}

/// A number with its thousands set apart.
pub fn grouped(number: u64) -> String {
    let digits = number.to_string();
    let mut text = String::new();
    for (i, digit) in digits.chars().enumerate() {
        if i > 0 && (digits.len() - i) % 3 == 0 {
            text.push(',');
        }
        text.push(digit);
    }
    text
}

/// What someone wrote, as a message has it: cut where it is long.
pub fn cut(text: &str) -> String {
    let start: String = text.chars().take(MESSAGE_LETTERS).collect();
    let end = if start.len() == text.len() { "" } else { ".." };
    plain(&start) + end
}

/// A text in which each letter can be shown: what cannot be is written out.
pub fn plain(text: &str) -> String {
    let letter = |letter: char| match letter {
        '\'' | '"' | '\\' => letter.to_string(),
        _ => letter.escape_debug().to_string(),
    };
    text.chars().map(letter).collect()
}
