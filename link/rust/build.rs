//! Links the archive that `link/archive` makes in the repository's folder target/staticlib, or the one in the folder that the variable GATULEFO names,
//! which then is for the target's processor.

use std::env;
use std::path::{Path, PathBuf};
use std::process::exit;

/// Ends the build with one line.
fn fail(why: &str) -> ! {
    eprintln!("gatulefo: {why}");
    exit(1)
}

fn folder() -> PathBuf {
    match env::var("GATULEFO") {
        Ok(folder) => PathBuf::from(folder),
        Err(_) => Path::new(&env::var("CARGO_MANIFEST_DIR").unwrap()).join("../../target/staticlib"),
    }
}

fn main() {
    println!("cargo:rerun-if-env-changed=GATULEFO");
    let target = format!("{}-{}", env::var("CARGO_CFG_TARGET_ARCH").unwrap(), env::var("CARGO_CFG_TARGET_OS").unwrap());
    if target != "x86_64-linux" && env::var("GATULEFO").is_err() {
        fail(&format!("the archive is for x86_64-linux and cannot be linked for {target}"));
    }
    let archive = folder().join("libgatulefo.a");
    let Ok(archive) = archive.canonicalize() else {
        fail(&format!("no {}: `link/archive` in the repository makes it", archive.display()));
    };
    println!("cargo:rerun-if-changed={}", archive.display());
    println!("cargo:rustc-link-search=native={}", archive.parent().unwrap().display());
    println!("cargo:rustc-link-lib=static=gatulefo");
}
