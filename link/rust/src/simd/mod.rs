//! The operations of simd.rs, in files by family.

mod access;
mod convert;
mod lane_index;
mod lanes;
mod lanewise;
mod reduce;
mod relaxed;
mod widen;

pub(crate) use access::Stored;
pub use access::*;
pub use convert::*;
pub use lane_index::*;
pub use lanes::*;
pub use lanewise::*;
pub use reduce::*;
pub use relaxed::*;
pub use widen::*;
