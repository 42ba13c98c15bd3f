//! Tells rustc where the proved archive is, and the oracle where the differential test is asked for.
//!
//! The archive is looked for in the folder that SITJORBE_LIB_DIR names, if it is set; else beside this file in lib/, where a package has it; else where
//! `tools/archive` writes it in the repository. Where it isn't there, a warning says so: `cargo check`, `doc` and `clippy` don't need it.

use std::path::{Path, PathBuf};
use std::{env, process};

const ARCHIVE: &str = "libsitjorbe.a";

fn main() {
    let crate_folder = PathBuf::from(env::var_os("CARGO_MANIFEST_DIR").expect("cargo sets CARGO_MANIFEST_DIR"));
    let repository = crate_folder.join("..");
    println!("cargo:rerun-if-env-changed=SITJORBE_LIB_DIR");
    let folder = match env::var_os("SITJORBE_LIB_DIR") {
        Some(named) => PathBuf::from(named),
        None if crate_folder.join("lib").is_dir() => crate_folder.join("lib"),
        None => repository.join("target/staticlib"),
    };
    if !folder.join(ARCHIVE).is_file() {
        println!("cargo:warning={} isn't in {}: {}", ARCHIVE, folder.display(), WHAT_TO_DO);
    }
    link("native", &folder, ARCHIVE);
    println!("cargo:lib_dir={}", folder.display());
    if env::var_os("CARGO_FEATURE_ORACLE").is_some() {
        let folder = repository.join("oracle/target");
        if !folder.join("liboracle.rlib").is_file() {
            eprintln!("liboracle.rlib isn't in {}: run `oracle/build` in the repository's root", folder.display());
            process::exit(1);
        }
        link("crate", &folder, "liboracle.rlib");
    }
}

const WHAT_TO_DO: &str = "name its folder in SITJORBE_LIB_DIR, or run `tools/archive` in the repository's root";

/// Adds a folder to rustc's search for the sake of a file in it.
fn link(kind: &str, folder: &Path, file: &str) {
    println!("cargo:rerun-if-changed={}", folder.join(file).display());
    println!("cargo:rustc-link-search={kind}={}", folder.display());
}
