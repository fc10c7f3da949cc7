//! Loads and stores.

use super::lane_index::{ImmLaneIdx2, ImmLaneIdx4, ImmLaneIdx8, ImmLaneIdx16};
use crate::{TrapCode, V128, shortfall};

/// What comes back of a load that hands back the vector alone: 0 where it is refused. Of a 0 the bounds test says which it is; a lane that can be made is
/// never refused.
#[inline]
fn loaded(vector: V128, memory: &[u8], ptr: u64, offset: u64, bytes: usize) -> Result<V128, TrapCode> {
    if vector.lo | vector.hi == 0 && shortfall(memory, ptr, offset, bytes) != 0 {
        return Err(TrapCode::MemoryOutOfBounds);
    }
    Ok(vector)
}

/// What comes back of a store: the archive's own struct.
#[repr(C)]
pub(crate) struct Stored {
    pub(crate) shortfall: u64,
    pub(crate) refused: u8,
}

// Before each load stands how many bytes it reads.
macro_rules! loads {
    ( $( $bytes:literal: fn $name:ident(memory: &[u8], ptr: u64, offset: u64 $(, $argument:ident: $ty:ident )*) -> Result<V128, TrapCode>; )* ) => { $(
        #[doc = concat!("Executes a Wasm `", stringify!($name), "` instruction.")]
        ///
        /// # Errors
        ///
        /// If the access runs past the end of `memory`.
        #[inline]
        pub fn $name(memory: &[u8], ptr: u64, offset: u64 $(, $argument: $ty )*) -> Result<V128, TrapCode> {
            let vector = call!("gatulefo_value_" $name(memory: &[u8], ptr: u64, offset: u64 $(, $argument: $ty )*) -> V128);
            loaded(vector, memory, ptr, offset, $bytes)
        }
    )* };
}

// An address is a pointer with the offset 0: each is the load of that name.
macro_rules! loads_at {
    ( $( $bytes:literal, $load:ident: fn $name:ident(memory: &[u8], address: usize $(, $argument:ident: $ty:ident )*) -> Result<V128, TrapCode>; )* ) => { $(
        #[doc = concat!("Executes a Wasm `", stringify!($name), "` instruction.")]
        ///
        /// # Errors
        ///
        /// If the access runs past the end of `memory`.
        #[inline]
        pub fn $name(memory: &[u8], address: usize $(, $argument: $ty )*) -> Result<V128, TrapCode> {
            let (ptr, offset) = (address as u64, 0_u64);
            let vector = call!("gatulefo_value_" $load(memory: &[u8], ptr: u64, offset: u64 $(, $argument: $ty )*) -> V128);
            loaded(vector, memory, ptr, offset, $bytes)
        }
    )* };
}

macro_rules! stores {
    ( $( fn $name:ident(memory: &mut [u8] $(, $argument:ident: $ty:ident )*) -> Result<(), TrapCode>; )* ) => { $(
        #[doc = concat!("Executes a Wasm `", stringify!($name), "` instruction.")]
        ///
        /// # Errors
        ///
        /// If the access runs past the end of `memory`; no byte is written then.
        #[inline]
        pub fn $name(memory: &mut [u8] $(, $argument: $ty )*) -> Result<(), TrapCode> {
            // A lane that can be made is never refused, so what is left is an access past the end.
            match call!("gatulefo_" $name(memory: &mut [u8] $(, $argument: $ty )*) -> Stored).refused {
                0 => Ok(()),
                _ => Err(TrapCode::MemoryOutOfBounds),
            }
        }
    )* };
}

loads! {
    16: fn v128_load(memory: &[u8], ptr: u64, offset: u64) -> Result<V128, TrapCode>;
    4: fn v128_load32_zero(memory: &[u8], ptr: u64, offset: u64) -> Result<V128, TrapCode>;
    8: fn v128_load64_zero(memory: &[u8], ptr: u64, offset: u64) -> Result<V128, TrapCode>;
    1: fn v128_load8_splat(memory: &[u8], ptr: u64, offset: u64) -> Result<V128, TrapCode>;
    2: fn v128_load16_splat(memory: &[u8], ptr: u64, offset: u64) -> Result<V128, TrapCode>;
    4: fn v128_load32_splat(memory: &[u8], ptr: u64, offset: u64) -> Result<V128, TrapCode>;
    8: fn v128_load64_splat(memory: &[u8], ptr: u64, offset: u64) -> Result<V128, TrapCode>;
    8: fn v128_load8x8_s(memory: &[u8], ptr: u64, offset: u64) -> Result<V128, TrapCode>;
    8: fn v128_load8x8_u(memory: &[u8], ptr: u64, offset: u64) -> Result<V128, TrapCode>;
    8: fn v128_load16x4_s(memory: &[u8], ptr: u64, offset: u64) -> Result<V128, TrapCode>;
    8: fn v128_load16x4_u(memory: &[u8], ptr: u64, offset: u64) -> Result<V128, TrapCode>;
    8: fn v128_load32x2_s(memory: &[u8], ptr: u64, offset: u64) -> Result<V128, TrapCode>;
    8: fn v128_load32x2_u(memory: &[u8], ptr: u64, offset: u64) -> Result<V128, TrapCode>;
}

loads_at! {
    16, v128_load: fn v128_load_at(memory: &[u8], address: usize) -> Result<V128, TrapCode>;
    4, v128_load32_zero: fn v128_load32_zero_at(memory: &[u8], address: usize) -> Result<V128, TrapCode>;
    8, v128_load64_zero: fn v128_load64_zero_at(memory: &[u8], address: usize) -> Result<V128, TrapCode>;
    1, v128_load8_splat: fn v128_load8_splat_at(memory: &[u8], address: usize) -> Result<V128, TrapCode>;
    2, v128_load16_splat: fn v128_load16_splat_at(memory: &[u8], address: usize) -> Result<V128, TrapCode>;
    4, v128_load32_splat: fn v128_load32_splat_at(memory: &[u8], address: usize) -> Result<V128, TrapCode>;
    8, v128_load64_splat: fn v128_load64_splat_at(memory: &[u8], address: usize) -> Result<V128, TrapCode>;
    8, v128_load8x8_s: fn v128_load8x8_s_at(memory: &[u8], address: usize) -> Result<V128, TrapCode>;
    8, v128_load8x8_u: fn v128_load8x8_u_at(memory: &[u8], address: usize) -> Result<V128, TrapCode>;
    8, v128_load16x4_s: fn v128_load16x4_s_at(memory: &[u8], address: usize) -> Result<V128, TrapCode>;
    8, v128_load16x4_u: fn v128_load16x4_u_at(memory: &[u8], address: usize) -> Result<V128, TrapCode>;
    8, v128_load32x2_s: fn v128_load32x2_s_at(memory: &[u8], address: usize) -> Result<V128, TrapCode>;
    8, v128_load32x2_u: fn v128_load32x2_u_at(memory: &[u8], address: usize) -> Result<V128, TrapCode>;
}

loads! {
    1: fn v128_load8_lane(memory: &[u8], ptr: u64, offset: u64, x: V128, lane: ImmLaneIdx16) -> Result<V128, TrapCode>;
    2: fn v128_load16_lane(memory: &[u8], ptr: u64, offset: u64, x: V128, lane: ImmLaneIdx8) -> Result<V128, TrapCode>;
    4: fn v128_load32_lane(memory: &[u8], ptr: u64, offset: u64, x: V128, lane: ImmLaneIdx4) -> Result<V128, TrapCode>;
    8: fn v128_load64_lane(memory: &[u8], ptr: u64, offset: u64, x: V128, lane: ImmLaneIdx2) -> Result<V128, TrapCode>;
}

loads_at! {
    1, v128_load8_lane: fn v128_load8_lane_at(memory: &[u8], address: usize, x: V128, lane: ImmLaneIdx16) -> Result<V128, TrapCode>;
    2, v128_load16_lane: fn v128_load16_lane_at(memory: &[u8], address: usize, x: V128, lane: ImmLaneIdx8) -> Result<V128, TrapCode>;
    4, v128_load32_lane: fn v128_load32_lane_at(memory: &[u8], address: usize, x: V128, lane: ImmLaneIdx4) -> Result<V128, TrapCode>;
    8, v128_load64_lane: fn v128_load64_lane_at(memory: &[u8], address: usize, x: V128, lane: ImmLaneIdx2) -> Result<V128, TrapCode>;
}

stores! {
    fn v128_store(memory: &mut [u8], ptr: u64, offset: u64, value: V128) -> Result<(), TrapCode>;
}

stores! {
    fn v128_store_at(memory: &mut [u8], address: usize, value: V128) -> Result<(), TrapCode>;
}

stores! {
    fn v128_store8_lane(memory: &mut [u8], ptr: u64, offset: u64, value: V128, imm: ImmLaneIdx16) -> Result<(), TrapCode>;
    fn v128_store16_lane(memory: &mut [u8], ptr: u64, offset: u64, value: V128, imm: ImmLaneIdx8) -> Result<(), TrapCode>;
    fn v128_store32_lane(memory: &mut [u8], ptr: u64, offset: u64, value: V128, imm: ImmLaneIdx4) -> Result<(), TrapCode>;
    fn v128_store64_lane(memory: &mut [u8], ptr: u64, offset: u64, value: V128, imm: ImmLaneIdx2) -> Result<(), TrapCode>;
}

stores! {
    fn v128_store8_lane_at(memory: &mut [u8], address: usize, value: V128, imm: ImmLaneIdx16) -> Result<(), TrapCode>;
    fn v128_store16_lane_at(memory: &mut [u8], address: usize, value: V128, imm: ImmLaneIdx8) -> Result<(), TrapCode>;
    fn v128_store32_lane_at(memory: &mut [u8], address: usize, value: V128, imm: ImmLaneIdx4) -> Result<(), TrapCode>;
    fn v128_store64_lane_at(memory: &mut [u8], address: usize, value: V128, imm: ImmLaneIdx2) -> Result<(), TrapCode>;
}
