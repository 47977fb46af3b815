//! Faults planted in a copy of the reference: the same run must catch each. An `.edit` file has the form of those under
//! `must-fail/`: a comment that says what is wrong, the file, one whole line of it, and what stands there instead.

use std::collections::BTreeSet;
use std::fs;
use std::path::{Path, PathBuf};
use std::process::Command;

/// A fault that is not met within so many builds and lookups is not caught.
const BUILDS: &str = "1000000";
const LOOKUPS: &str = "10000000";

struct Edit {
    name: String,
    says: String,
    file: String,
    old: String,
    new: String,
}

fn top() -> PathBuf {
    Path::new(env!("CARGO_MANIFEST_DIR")).join("../..")
}

fn read(path: &Path) -> Edit {
    let text = fs::read_to_string(path).expect("an edit");
    let after = |key: &str| {
        let line = text.lines().find_map(|line| line.strip_prefix(key));
        line.unwrap_or_else(|| panic!("{}: no '{key}'", path.display())).to_string()
    };
    let name = path.file_stem().unwrap_or_default().to_string_lossy().into_owned();
    Edit { name, says: after("# "), file: after("file: "), old: after("old: "), new: after("new: ") }
}

fn edits() -> Vec<Edit> {
    let folder = top().join("reference/fuzz/planted");
    let files = fs::read_dir(folder).expect("the edits").map(|file| file.expect("an edit").path());
    let mut files: Vec<PathBuf> = files.filter(|path| path.extension().is_some_and(|e| e == "edit")).collect();
    files.sort();
    files.iter().map(|path| read(path)).collect()
}

/// Copies a folder but for what cargo makes in it.
fn copy(from: &Path, to: &Path) {
    fs::create_dir_all(to).expect("a folder for the copy");
    for file in fs::read_dir(from).expect("a folder to copy") {
        let file = file.expect("a file to copy");
        let (path, target) = (file.path(), to.join(file.file_name()));
        if path.is_file() {
            fs::write(target, fs::read(path).expect("a file to copy")).expect("a copy");
        } else if file.file_name() != "target" {
            copy(&path, &target);
        }
    }
}

/// A file's path, and its text with the one line replaced.
fn edited(edit: &Edit, top: &Path) -> (PathBuf, String) {
    let path = top.join("reference/src").join(&edit.file);
    let text = fs::read_to_string(&path).expect("the file of the edit");
    assert!(text.lines().filter(|line| *line == edit.old).count() == 1, "{}: one such line", edit.name);
    let lines: Vec<&str> = text.lines().map(|line| if line == edit.old { &edit.new } else { line }).collect();
    (path, lines.join("\n") + "\n")
}

/// Each edit finds its line, and no two leave the same text.
fn told_apart(edits: &[Edit]) {
    let texts: BTreeSet<(PathBuf, String)> = edits.iter().map(|edit| edited(edit, &top())).collect();
    assert!(texts.len() == edits.len(), "two edits are one");
}

fn plant(edit: &Edit, copied: &Path) {
    let (path, text) = edited(edit, copied);
    fs::write(path, text).expect("the edited file");
}

/// Builds the copy and runs it: caught is a run that ends with status 1 and says after how many cases.
fn caught(copied: &Path, seed: u64) -> Option<String> {
    let archive = std::env::var_os("HONGSAMUK_LIB_DIR").map_or(top().join("target/host"), PathBuf::from);
    let archive = archive.canonicalize().expect("the folder of the archive");
    let out = Command::new("cargo")
        .args(["run", "--quiet", "--release", "--offline", "--manifest-path"])
        .arg(copied.join("reference/fuzz/Cargo.toml"))
        .args(["--", "run", "--builds", BUILDS, "--lookups", LOOKUPS, "--seed", &seed.to_string()])
        .env("HONGSAMUK_LIB_DIR", archive)
        .env("CARGO_TARGET_DIR", copied.join("target"))
        .output()
        .expect("cargo");
    let said = String::from_utf8_lossy(&out.stdout).into_owned();
    let line = said.lines().find(|line| line.starts_with("caught after "))?;
    (out.status.code() == Some(1)).then(|| line.to_string())
}

pub fn run(seed: u64) -> bool {
    let copied = top().join("target/planted");
    let (edits, mut good) = (edits(), true);
    told_apart(&edits);
    for edit in edits {
        for part in ["reference", "bindings/rust"] {
            copy(&top().join(part), &copied.join(part));
        }
        plant(&edit, &copied);
        let told = caught(&copied, seed);
        good &= told.is_some();
        println!("{} ({}): {}", edit.name, edit.says, told.unwrap_or("NOT CAUGHT".to_string()));
    }
    good
}
