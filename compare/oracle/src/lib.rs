//! The oracle: the functions of the request's `simd.rs`, called by the requests of the program `direct`, and what compares the two.
//!
//! `simd.rs` is compiled unchanged from where it was supplied. The modules that it leans on were not supplied: those in `standins` are
//! NOT THE ORIGINALS, and README.md beside this crate says what a comparison through them does and does not show.

mod standins;

// The names under which simd.rs looks for what it leans on.
pub use standins::trap::TrapCode;
pub use standins::v128::V128;
use standins::{memory, value, wasm};

include!(concat!(env!("OUT_DIR"), "/supplied.rs"));

pub mod check;
pub mod families;
pub mod generate;
pub mod records;
pub mod rows;
pub mod run;
pub mod suite;
pub mod table;
pub mod wire;
