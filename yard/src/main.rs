//! `yard`: see the library of this crate. Says what a command has to say on standard output and ends with 0, or says in one line on
//! standard error what is wrong and ends with 1.

use std::io::Write;
use std::process::ExitCode;

use yard::{run, Problem};

fn say(text: &str) -> Result<(), Problem> {
    let mut out = std::io::stdout().lock();
    let said = out.write_all(text.as_bytes()).and_then(|()| out.flush());
    said.map_err(|error| Problem(format!("standard output cannot be written: {error}")))
}

/// The words after the program's name.
fn words() -> Result<Vec<String>, Problem> {
    let word =
        |given: std::ffi::OsString| given.into_string().map_err(|_| Problem("a word of the command is no text".into()));
    std::env::args_os().skip(1).map(word).collect()
}

fn main() -> ExitCode {
    match words().and_then(|words| run(&words)).and_then(|text| say(&text)) {
        Ok(()) => ExitCode::SUCCESS,
        Err(problem) => {
            // Where standard error cannot be written either, the exit status is all that is left.
            let _ = writeln!(std::io::stderr(), "yard: {problem}");
            ExitCode::FAILURE
        }
    }
}
