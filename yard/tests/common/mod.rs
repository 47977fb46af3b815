//! What several tests share: the program run as people run it, files for it, random tables, and a plain scan over a table.
#![allow(dead_code)] // each test takes what it needs

pub mod xml;

use std::fs;
use std::io::Write;
use std::path::{Path, PathBuf};
use std::process::{Command, Stdio};

use hongsamuk::Kind;
use yard::arrays::{How, Strides};
use yard::routes::Routes;

/// The repository's top, where its examples and documents are.
pub fn top() -> PathBuf {
    Path::new(env!("CARGO_MANIFEST_DIR")).join("..")
}

pub fn example(name: &str) -> String {
    path(&top().join("examples").join(name))
}

pub fn path(path: &Path) -> String {
    path.to_str().expect("a path of plain text").into()
}

/// A folder of one test, which goes when the test ends.
pub struct Folder(PathBuf);

impl Folder {
    pub fn new(name: &str) -> Folder {
        let folder = std::env::temp_dir().join(format!("yard-{}-{name}", std::process::id()));
        fs::create_dir_all(&folder).expect("a folder for the test");
        Folder(folder)
    }

    pub fn file(&self, name: &str, text: impl AsRef<[u8]>) -> String {
        let file = self.0.join(name);
        fs::write(&file, text).expect("a file for the test");
        path(&file)
    }

    /// The name of a file that is not there yet.
    pub fn unwritten(&self, name: &str) -> String {
        path(&self.0.join(name))
    }
}

impl Drop for Folder {
    fn drop(&mut self) {
        let _ = fs::remove_dir_all(&self.0);
    }
}

/// What a run of the program did.
pub struct Ran {
    pub status: i32,
    pub said: String,
    pub complained: String,
}

pub fn yard_on(input: &[u8], words: &[&str]) -> Ran {
    let mut yard = Command::new(env!("CARGO_BIN_EXE_yard"));
    yard.args(words).stdin(Stdio::piped()).stdout(Stdio::piped()).stderr(Stdio::piped());
    let mut yard = yard.spawn().expect("the program runs");
    // A program that ends before it has read all leaves a broken pipe.
    let _ = yard.stdin.take().expect("an input").write_all(input);
    let output = yard.wait_with_output().expect("the program ends");
    let text = |bytes| String::from_utf8(bytes).expect("the program says text");
    Ran {
        status: output.status.code().expect("the program ends by itself"),
        said: text(output.stdout),
        complained: text(output.stderr),
    }
}

/// What a command says that goes well.
pub fn said(words: &[&str]) -> String {
    let ran = yard_on(b"", words);
    assert_eq!((ran.status, ran.complained.as_str()), (0, ""), "{words:?}");
    ran.said
}

/// What a command says that does not go well: one line, status 1, and nothing on standard output.
pub fn complaint(words: &[&str]) -> String {
    complaint_on(b"", words)
}

pub fn complaint_on(input: &[u8], words: &[&str]) -> String {
    let ran = yard_on(input, words);
    assert_eq!((ran.status, ran.said.as_str()), (1, ""), "{words:?}: {}", ran.complained);
    let line = ran.complained.strip_suffix('\n').expect("a whole line");
    assert!(!line.contains('\n'), "{words:?}: one line: {line}");
    line.strip_prefix("yard: ").expect("the program's name first").into()
}

pub const KINDS: [(Kind, &str); 2] = [(Kind::Fixed, "fst"), (Kind::Variable, "vst")];

/// Every way to build a table with some numbers of levels.
pub fn ways(levels: &[u32]) -> Vec<How> {
    let strides = |kind| levels.iter().map(move |levels| How::Elements(Strides { kind, levels: *levels }));
    KINDS.into_iter().flat_map(|(kind, _)| strides(kind)).chain([How::Bitmap]).collect()
}

/// Hop and length of the longest route of a table that begins the address.
pub fn scan(routes: &Routes, address: u32) -> Option<(u16, u8)> {
    let begins = |first: u32, last: u32| (first..=last).contains(&address);
    let matching = routes.routes.iter().filter(|route| begins(route.prefix.first(), route.prefix.last()));
    matching.map(|route| (route.hop, route.prefix.length())).max_by_key(|(_, length)| *length)
}

/// Numbers that look random, the same ones in every run.
pub struct Random(pub u64);

impl Random {
    pub fn below(&mut self, end: u64) -> u64 {
        self.0 = self.0.wrapping_mul(6364136223846793005).wrapping_add(1442695040888963407);
        (self.0 >> 33) % end
    }

    fn word(&mut self) -> u32 {
        (self.below(1 << 16) << 16 | self.below(1 << 16)) as u32
    }

    /// A table with so many lines: routes of up to `longest` bits, in any order, some below others, some that discard. None stands twice.
    pub fn table(&mut self, lines: usize, longest: u64) -> String {
        let mut prefixes: Vec<yard::dotted::Prefix> = Vec::new();
        let mut text = String::new();
        for _ in 0..lines {
            let length = self.below(longest + 1) as u8;
            let near = prefixes.get(self.below(lines as u64) as usize).map_or(self.word(), |prefix| prefix.first());
            let prefix = yard::dotted::Prefix::of(near ^ (self.word() >> self.below(32)), length);
            if prefixes.contains(&prefix) {
                continue;
            }
            prefixes.push(prefix);
            match self.below(8) {
                0 => text.push_str(&format!("{prefix} discard\n")),
                _ => text.push_str(&format!("{prefix}\t{}\n", self.below(65_534) + 1)),
            }
        }
        text
    }
}
