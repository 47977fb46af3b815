//! Links the archive `libgateway.a` from target/host at the repository's top, where `bindings/host-archive gateway`
//! writes it, or from the folder that HONGSAMUK_LIB_DIR names.

use std::path::{Path, PathBuf};

const ARCHIVE: &str = "libgateway.a";
const FOLDER: &str = "HONGSAMUK_LIB_DIR";

fn main() {
    println!("cargo:rerun-if-env-changed={FOLDER}");
    let top = Path::new(env!("CARGO_MANIFEST_DIR")).join("../..");
    let folder = std::env::var_os(FOLDER).map_or(top.join("target/host"), PathBuf::from);
    let archive = folder.join(ARCHIVE);
    println!("cargo:rerun-if-changed={}", archive.display());
    if !archive.is_file() {
        println!("cargo:warning=there is no {}: run bindings/host-archive gateway", archive.display());
    }
    println!("cargo:rustc-link-search=native={}", folder.display());
    println!("cargo:rustc-link-lib=static=gateway");
}
