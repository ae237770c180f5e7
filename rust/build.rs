//! Finds libpirasteh.a, the archive of the proved library, and has it linked.
//!
//! It is looked for in the directory that `PIRASTEH_LIB_DIR` names, and without that variable in
//! `target/native` of the repository. Where it is missing this says so and goes on: to check or to
//! document the wrapper takes no archive, and what does take it is stopped by the compiler.

use std::env;
use std::fs;
use std::path::{Path, PathBuf};

fn main() {
    println!("cargo:rerun-if-env-changed=PIRASTEH_LIB_DIR");
    println!("cargo:rustc-link-lib=static=pirasteh");
    match directory() {
        Ok(dir) => search(&dir),
        Err(why) => warn(&why),
    }
}

/// Where the archive should be, or why that cannot be said.
fn directory() -> Result<PathBuf, String> {
    let Some(dir) = env::var_os("PIRASTEH_LIB_DIR").map(PathBuf::from) else {
        return Ok(root().join("target").join("native"));
    };
    // This program runs in the package's own folder, where a relative path leads elsewhere.
    if dir.is_relative() {
        return Err(format!("PIRASTEH_LIB_DIR is `{}`, a relative path", dir.display()));
    }
    Ok(dir)
}

/// The root of the repository, one above this package.
fn root() -> PathBuf {
    let package = env::var_os("CARGO_MANIFEST_DIR").map_or_else(PathBuf::new, PathBuf::from);
    let above = package.join("..");
    fs::canonicalize(&above).unwrap_or(above)
}

/// Has the archive linked from this directory, if it is there.
fn search(dir: &Path) {
    let archive = dir.join("libpirasteh.a");
    println!("cargo:rerun-if-changed={}", archive.display());
    if archive.is_file() {
        println!("cargo:rustc-link-search=native={}", dir.display());
    } else {
        // A file that is never there has this program run again with the next build, so that an
        // archive is seen when it comes, also one that is older than this run.
        println!("cargo:rerun-if-changed=never-there");
        warn(&format!("there is no libpirasteh.a in `{}`", dir.display()));
    }
}

fn warn(why: &str) {
    for line in [
        &format!("{why}, so no program can be linked"),
        "to make the archive, run `scripts/archive target/native` at the root of the repository \
         and leave PIRASTEH_LIB_DIR unset",
        "to use one that is elsewhere, set PIRASTEH_LIB_DIR to the absolute path of its directory",
    ] {
        println!("cargo:warning={line}");
    }
}
