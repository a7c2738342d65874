//! Finds the proved archive, or has it made, and links it.
//!
//! The archive is copied into Cargo's own directory under a name of ours, so that `HOMELUDAF_LIB`
//! may name a file of any name and nothing else in its directory can be linked by mistake.

use std::env;
use std::fs;
use std::path::{Path, PathBuf};
use std::process::{exit, Command};

/// The name that `rt lib` gives to the archive, in crates/exports/out.
const ARCHIVE: &str = "libexports.a";

fn main() {
    println!("cargo:rerun-if-changed=build.rs");
    println!("cargo:rerun-if-env-changed=HOMELUDAF_LIB");
    let archive = match env::var_os("HOMELUDAF_LIB") {
        Some(named) => named_archive(Path::new(&named)),
        None => made_archive(),
    };

    let out = PathBuf::from(env::var_os("OUT_DIR").expect("Cargo sets OUT_DIR"));
    if let Err(e) = fs::copy(&archive, out.join("libhomeludaf_exports.a")) {
        stop(&format!("cannot copy {}: {e}", archive.display()));
    }
    println!("cargo:rustc-link-search=native={}", out.display());
    println!("cargo:rustc-link-lib=static=homeludaf_exports");
}

/// The archive that `HOMELUDAF_LIB` names, itself or by its directory.
fn named_archive(named: &Path) -> PathBuf {
    let archive = if named.is_dir() {
        named.join(ARCHIVE)
    } else {
        named.to_path_buf()
    };
    if !archive.is_file() {
        stop(&format!(
            "HOMELUDAF_LIB names {}, and there is no archive {}",
            named.display(),
            archive.display()
        ));
    }
    println!("cargo:rerun-if-changed={}", archive.display());
    archive
}

/// The archive made by `rt lib` in crates/exports of the repository that this crate lies in.
///
/// Made anew when a source of it has changed. Each crate's out/ is left out: what `rt` writes there
/// is younger than this run, and would have Cargo run this each time.
fn made_archive() -> PathBuf {
    const ELSE: &str = "set HOMELUDAF_LIB to the archive or to its directory";
    let arch = env::var("CARGO_CFG_TARGET_ARCH").unwrap_or_default();
    if arch != "x86_64" {
        stop(&format!(
            "`rt lib` makes archives for x86-64 and this is {arch}: {ELSE}"
        ));
    }
    let manifest = PathBuf::from(env::var_os("CARGO_MANIFEST_DIR").expect("Cargo sets it"));
    let top = manifest
        .parent()
        .unwrap_or_else(|| stop(&format!("there is no repository above this crate: {ELSE}")));
    if !top.join("crates.txt").is_file() {
        stop(&format!(
            "{} is not the top of the repository: {ELSE}",
            top.display()
        ));
    }
    for source in sources(top) {
        println!("cargo:rerun-if-changed={}", source.display());
    }
    let exports = top.join("crates/exports");
    let made = Command::new("rt")
        .args(["lib", "--cpu=x86-64"])
        .current_dir(&exports)
        .output();
    match made {
        Err(e) => stop(&format!("cannot run `rt lib` ({e}): {ELSE}")),
        Ok(ran) if !ran.status.success() => stop(&format!(
            "`rt lib` failed in {} ({}): {ELSE}\n{}{}",
            exports.display(),
            ran.status,
            String::from_utf8_lossy(&ran.stdout),
            String::from_utf8_lossy(&ran.stderr)
        )),
        Ok(_) => exports.join("out").join(ARCHIVE),
    }
}

/// What the archive is made of: crates.txt, and each crate's src, specs and proofs.
fn sources(top: &Path) -> Vec<PathBuf> {
    let crates =
        fs::read_dir(top.join("crates")).unwrap_or_else(|e| stop(&format!("crates/: {e}")));
    let parts = crates
        .flatten()
        .flat_map(|it| ["src", "specs", "proofs"].map(|part| it.path().join(part)))
        .filter(|it| it.is_dir());
    parts.chain([top.join("crates.txt")]).collect()
}

fn stop(why: &str) -> ! {
    eprintln!("homeludaf: {why}");
    exit(1)
}
