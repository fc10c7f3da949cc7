//! Takes the tests that the request's `src/simd.rs` carries out of it, unchanged, for `tests/supplied.rs`. The file is looked for as compare/oracle looks for it.

use std::path::{Path, PathBuf};
use std::{env, fs};

fn main() {
    println!("cargo:rerun-if-env-changed=SHARED");
    let shared = match env::var("SHARED") {
        Ok(folder) => PathBuf::from(folder),
        Err(_) => Path::new(&env::var("CARGO_MANIFEST_DIR").unwrap()).join("../../../shared"),
    };
    let path = shared.join("docs/src/src/simd.rs");
    println!("cargo:rerun-if-changed={}", path.display());
    let simd = fs::read_to_string(&path).unwrap_or_else(|error| panic!("{}: {error}; set SHARED to the folder `shared`", path.display()));
    let tests = &simd[simd.find("#[test]").expect("tests in simd.rs")..];
    fs::write(Path::new(&env::var("OUT_DIR").unwrap()).join("tests.rs"), tests).unwrap();
}
