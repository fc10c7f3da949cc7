//! Names the request's files to the compiler: `src/simd.rs` and the list of functions stay where they were supplied and are not copied.
//! They are looked for in `../shared` beside the repository, or in the folder that the variable SHARED names.

use std::path::{Path, PathBuf};
use std::{env, fs};

fn shared() -> PathBuf {
    match env::var("SHARED") {
        Ok(folder) => PathBuf::from(folder),
        Err(_) => Path::new(&env::var("CARGO_MANIFEST_DIR").unwrap()).join("../../../shared"),
    }
}

fn supplied(name: &str) -> String {
    let path = shared().join(name);
    let path = path.canonicalize().unwrap_or_else(|error| panic!("{}: {error}; set SHARED to the folder `shared`", path.display()));
    println!("cargo:rerun-if-changed={}", path.display());
    path.display().to_string()
}

fn main() {
    println!("cargo:rerun-if-env-changed=SHARED");
    let simd = supplied("docs/src/src/simd.rs");
    let functions = supplied("standard/functions.tsv");
    let module = format!(
        "/// The request's file, unchanged.\n#[path = {simd:?}]\npub mod simd;\n\n\
         /// The list of functions; the function on line 2 is number 0.\npub const FUNCTIONS: &str = include_str!({functions:?});\n"
    );
    fs::write(Path::new(&env::var("OUT_DIR").unwrap()).join("supplied.rs"), module).unwrap();
}
