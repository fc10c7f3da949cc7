//! The calls, in files by family, each under the name of its function.

// Shared by lanewise and widen: operations of one and of two vectors.
macro_rules! unary {
    ( $( fn $name:ident($lane:ident); )* ) => { vec![ $( Entry {
        name: stringify!($name),
        shape: Shape::Unary(Lane::$lane),
        call: |request, _| Ok(simd::$name(request.a.into()).into()),
    } ),* ] };
}

macro_rules! binary {
    ( $( fn $name:ident($lane:ident); )* ) => { vec![ $( Entry {
        name: stringify!($name),
        shape: Shape::Binary(Lane::$lane),
        call: |request, _| Ok(simd::$name(request.a.into(), request.b.into()).into()),
    } ),* ] };
}

mod float;
mod lanes;
mod lanewise;
mod memory;
mod reduce;
mod relaxed;
mod widen;

use crate::TrapCode;
use crate::simd::ImmLaneIdx;
use crate::table::Entry;
use crate::wire::{ACCESS_REFUSED, LANE_REFUSED};

/// Every call there is.
pub fn all() -> Vec<Entry> {
    [lanes::entries(), lanewise::entries(), float::entries(), widen::entries(), reduce::entries(), relaxed::entries(), memory::entries()]
        .concat()
}

/// The lane of a request, made as the Rust makes it.
fn lane<const N: u8>(lane: u8) -> Result<ImmLaneIdx<N>, u8> {
    ImmLaneIdx::try_from(lane).map_err(|_| LANE_REFUSED)
}

/// The number that a trap is answered with.
fn past_the_end(_: TrapCode) -> u8 {
    ACCESS_REFUSED
}
