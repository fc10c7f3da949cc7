//! Names the static library of the port's functions to the linker: `libport.a` in the folder that the variable PORT names. compare/conversions makes it.

fn main() {
    println!("cargo:rerun-if-env-changed=PORT");
    let folder = std::env::var("PORT").expect("PORT: the folder of libport.a");
    println!("cargo:rerun-if-changed={folder}/libport.a");
    println!("cargo:rustc-link-search=native={folder}");
    println!("cargo:rustc-link-lib=static=port");
}
