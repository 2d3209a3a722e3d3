//! Links the archive that holds the unit, and says what to run where it is missing.

use std::path::Path;
use std::process::exit;

/// The folder in which `evidence/archives.sh` leaves the archives.
const FOLDER: &str = "../target/staticlib";

fn main() {
    let here = std::env::var("CARGO_MANIFEST_DIR").unwrap_or_default();
    let folder = Path::new(&here).join(FOLDER);
    let archive = folder.join("libtazbilk.a");
    println!("cargo:rerun-if-changed=build.rs");
    println!("cargo:rerun-if-changed={}", archive.display());
    if !archive.exists() {
        eprintln!(
            "\nmissing: target/staticlib/libtazbilk.a.\n\
             Run `evidence/archives.sh tazbilk` in the root of the repository (which needs rt, the command of the Rattle kit)."
        );
        exit(1);
    }
    println!("cargo:rustc-link-search=native={}", folder.display());
    println!("cargo:rustc-link-lib=static=tazbilk");
}
