//! The functions of [`simd`](crate::simd) that may refuse, for any lane number, index and address. A [`Refusal`] has the number that document 01 gives it,
//! and of an access past the end how far past the end it runs (document 02, order 9); one call tells all of it.
//!
//! ```
//! use gatulefo::{checked, Refusal, V128};
//!
//! let v = V128::from(0x0102);
//! assert_eq!(checked::i8x16_extract_lane_u(v, 15), Ok(0));
//! assert_eq!(checked::i8x16_extract_lane_u(v, 16), Err(Refusal { number: 4, shortfall: 0 }));
//! assert_eq!(checked::i8x16_replace_lane(v, 1, 0), Ok(V128::from(2)));
//! assert_eq!(checked::i8x16_shuffle(v, v, &[32; 16]), Err(Refusal { number: 5, shortfall: 0 }));
//!
//! let mut memory = [7; 16];
//! assert_eq!(checked::v128_load8_splat(&memory, 15, 0), Ok(V128::from([7; 16])));
//! assert_eq!(checked::v128_load(&memory, 3, 0), Err(Refusal { number: 7, shortfall: 3 }));
//! assert_eq!(checked::v128_store64_lane_at(&mut memory, 9, v, 0), Err(Refusal { number: 7, shortfall: 1 }));
//! assert_eq!(memory, [7; 16]);
//! ```

use crate::scalar::BitsOrRefusal;
use crate::simd::Stored;
use crate::{Refusal, V128};

/// The archive's own structs.
#[repr(C)]
struct VectorOrRefusal {
    vector: V128,
    refused: u8,
}

#[repr(C)]
struct Loaded {
    vector: V128,
    shortfall: u64,
    refused: u8,
}

impl VectorOrRefusal {
    #[inline]
    fn checked(self) -> Result<V128, Refusal> {
        Refusal::or(self.refused, self.vector)
    }
}

impl Loaded {
    #[inline]
    fn checked(self) -> Result<V128, Refusal> {
        Refusal::of(self.refused, self.shortfall).map_or(Ok(self.vector), Err)
    }
}

impl Stored {
    #[inline]
    fn checked(self) -> Result<(), Refusal> {
        Refusal::of(self.refused, self.shortfall).map_or(Ok(()), Err)
    }
}

macro_rules! checked {
    ( $answer:ident $why:literal; $( fn $name:ident( $( $arguments:tt )* ) -> $result:ty; )* ) => { $(
        #[doc = concat!("Executes a Wasm `", stringify!($name), "` instruction.")]
        ///
        /// # Errors
        ///
        #[doc = $why]
        #[inline]
        pub fn $name( $( $arguments )* ) -> Result<$result, Refusal> {
            call!("gatulefo_" $name( $( $arguments )* ) -> $answer).checked()
        }
    )* };
}

checked! { BitsOrRefusal "4 where the lane is not below the lane count.";
    fn i64x2_extract_lane(v: V128, lane: u8) -> i64;
    fn i32x4_extract_lane(v: V128, lane: u8) -> i32;
    fn f64x2_extract_lane(v: V128, lane: u8) -> f64;
    fn f32x4_extract_lane(v: V128, lane: u8) -> f32;
    fn i8x16_extract_lane_s(v: V128, lane: u8) -> i32;
    fn i8x16_extract_lane_u(v: V128, lane: u8) -> u32;
    fn i16x8_extract_lane_s(v: V128, lane: u8) -> i32;
    fn i16x8_extract_lane_u(v: V128, lane: u8) -> u32;
}

checked! { VectorOrRefusal "4 where the lane is not below the lane count.";
    fn i64x2_replace_lane(v: V128, lane: u8, item: i64) -> V128;
    fn i32x4_replace_lane(v: V128, lane: u8, item: i32) -> V128;
    fn i16x8_replace_lane(v: V128, lane: u8, item: i16) -> V128;
    fn i8x16_replace_lane(v: V128, lane: u8, item: i8) -> V128;
    fn f64x2_replace_lane(v: V128, lane: u8, item: f64) -> V128;
    fn f32x4_replace_lane(v: V128, lane: u8, item: f32) -> V128;
}

checked! { VectorOrRefusal "5 where an index is above 31.";
    fn i8x16_shuffle(a: V128, b: V128, s: &[u8; 16]) -> V128;
}

checked! { Loaded "7 where the access runs past the end of `memory`.";
    fn v128_load(memory: &[u8], ptr: u64, offset: u64) -> V128;
    fn v128_load32_zero(memory: &[u8], ptr: u64, offset: u64) -> V128;
    fn v128_load64_zero(memory: &[u8], ptr: u64, offset: u64) -> V128;
    fn v128_load8_splat(memory: &[u8], ptr: u64, offset: u64) -> V128;
    fn v128_load16_splat(memory: &[u8], ptr: u64, offset: u64) -> V128;
    fn v128_load32_splat(memory: &[u8], ptr: u64, offset: u64) -> V128;
    fn v128_load64_splat(memory: &[u8], ptr: u64, offset: u64) -> V128;
    fn v128_load8x8_s(memory: &[u8], ptr: u64, offset: u64) -> V128;
    fn v128_load8x8_u(memory: &[u8], ptr: u64, offset: u64) -> V128;
    fn v128_load16x4_s(memory: &[u8], ptr: u64, offset: u64) -> V128;
    fn v128_load16x4_u(memory: &[u8], ptr: u64, offset: u64) -> V128;
    fn v128_load32x2_s(memory: &[u8], ptr: u64, offset: u64) -> V128;
    fn v128_load32x2_u(memory: &[u8], ptr: u64, offset: u64) -> V128;
    fn v128_load_at(memory: &[u8], address: usize) -> V128;
    fn v128_load32_zero_at(memory: &[u8], address: usize) -> V128;
    fn v128_load64_zero_at(memory: &[u8], address: usize) -> V128;
    fn v128_load8_splat_at(memory: &[u8], address: usize) -> V128;
    fn v128_load16_splat_at(memory: &[u8], address: usize) -> V128;
    fn v128_load32_splat_at(memory: &[u8], address: usize) -> V128;
    fn v128_load64_splat_at(memory: &[u8], address: usize) -> V128;
    fn v128_load8x8_s_at(memory: &[u8], address: usize) -> V128;
    fn v128_load8x8_u_at(memory: &[u8], address: usize) -> V128;
    fn v128_load16x4_s_at(memory: &[u8], address: usize) -> V128;
    fn v128_load16x4_u_at(memory: &[u8], address: usize) -> V128;
    fn v128_load32x2_s_at(memory: &[u8], address: usize) -> V128;
    fn v128_load32x2_u_at(memory: &[u8], address: usize) -> V128;
}

checked! { Loaded "4 where the lane is not below the lane count, then 7 where the access runs past the end of `memory`.";
    fn v128_load8_lane(memory: &[u8], ptr: u64, offset: u64, x: V128, lane: u8) -> V128;
    fn v128_load16_lane(memory: &[u8], ptr: u64, offset: u64, x: V128, lane: u8) -> V128;
    fn v128_load32_lane(memory: &[u8], ptr: u64, offset: u64, x: V128, lane: u8) -> V128;
    fn v128_load64_lane(memory: &[u8], ptr: u64, offset: u64, x: V128, lane: u8) -> V128;
    fn v128_load8_lane_at(memory: &[u8], address: usize, x: V128, lane: u8) -> V128;
    fn v128_load16_lane_at(memory: &[u8], address: usize, x: V128, lane: u8) -> V128;
    fn v128_load32_lane_at(memory: &[u8], address: usize, x: V128, lane: u8) -> V128;
    fn v128_load64_lane_at(memory: &[u8], address: usize, x: V128, lane: u8) -> V128;
}

checked! { Stored "7 where the access runs past the end of `memory`; no byte is written then.";
    fn v128_store(memory: &mut [u8], ptr: u64, offset: u64, value: V128) -> ();
    fn v128_store_at(memory: &mut [u8], address: usize, value: V128) -> ();
}

checked! { Stored "4 where the lane is not below the lane count, then 7 where the access runs past the end of `memory`; no byte is written then.";
    fn v128_store8_lane(memory: &mut [u8], ptr: u64, offset: u64, value: V128, lane: u8) -> ();
    fn v128_store16_lane(memory: &mut [u8], ptr: u64, offset: u64, value: V128, lane: u8) -> ();
    fn v128_store32_lane(memory: &mut [u8], ptr: u64, offset: u64, value: V128, lane: u8) -> ();
    fn v128_store64_lane(memory: &mut [u8], ptr: u64, offset: u64, value: V128, lane: u8) -> ();
    fn v128_store8_lane_at(memory: &mut [u8], address: usize, value: V128, lane: u8) -> ();
    fn v128_store16_lane_at(memory: &mut [u8], address: usize, value: V128, lane: u8) -> ();
    fn v128_store32_lane_at(memory: &mut [u8], address: usize, value: V128, lane: u8) -> ();
    fn v128_store64_lane_at(memory: &mut [u8], address: usize, value: V128, lane: u8) -> ();
}
