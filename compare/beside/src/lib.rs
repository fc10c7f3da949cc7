//! The Rust and the port in one process. The crate `oracle` has simd.rs; here its table and its calls are compiled a second time, unchanged, and call the
//! linked library under the same names.

pub use gatulefo::{TrapCode, V128, simd};
pub use oracle::FUNCTIONS;

#[path = "../../oracle/src/families/mod.rs"]
pub mod families;
#[path = "../../oracle/src/table.rs"]
pub mod table;
#[path = "../../oracle/src/wire.rs"]
pub mod wire;

pub mod compare;
pub mod every;
pub mod packed;
pub mod port;
pub mod tally;
pub mod time;
pub mod work;
