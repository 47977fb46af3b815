//! Files, and `-` for standard input.

use std::fs;
use std::io::{self, Read};
use std::os::unix::fs::MetadataExt;
use std::path::Path;

use crate::dotted::plain;
use crate::Problem;

/// The name that stands for standard input, and where the system has it.
pub const STANDARD_INPUT: &str = "-";
const INPUT_FILE: &str = "/dev/stdin";

pub fn read(file: &str) -> Result<Vec<u8>, Problem> {
    let bytes = if file == STANDARD_INPUT { read_input() } else { fs::read(file) };
    bytes.map_err(|error| Problem(format!("cannot be read: {error}")).at(name(file)))
}

/// All of standard input. That there is nothing at all is how a pipe looks whose other end has failed.
fn read_input() -> io::Result<Vec<u8>> {
    let mut bytes = Vec::new();
    match io::stdin().lock().read_to_end(&mut bytes)? {
        0 => Err(io::Error::new(io::ErrorKind::UnexpectedEof, "there is nothing")),
        _ => Ok(bytes),
    }
}

/// How the file is called in messages and pictures.
pub fn name(file: &str) -> String {
    match file {
        STANDARD_INPUT => "standard input".into(),
        "" => "''".into(),
        _ => plain(file),
    }
}

/// The same without its folders.
pub fn last_name(file: &str) -> String {
    name(Path::new(file).file_name().and_then(|last| last.to_str()).unwrap_or(file))
}

/// Whether two names are those of one file that is there.
pub fn is_same(one: &str, other: &str) -> bool {
    let which = |file: &str| {
        let file = if file == STANDARD_INPUT { INPUT_FILE } else { file };
        fs::metadata(file).map(|found| (found.dev(), found.ino()))
    };
    which(one).is_ok_and(|one| which(other).is_ok_and(|other| one == other))
}

pub fn write(file: &str, text: &str) -> Result<(), Problem> {
    fs::write(file, text).map_err(|error| Problem(format!("cannot be written: {error}")).at(name(file)))
}
