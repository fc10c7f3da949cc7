//! Splat, extract, replace, shuffle.

use super::lane_index::{ImmLaneIdx2, ImmLaneIdx4, ImmLaneIdx8, ImmLaneIdx16, ImmLaneIdx32};
use crate::V128;
use crate::scalar::{BitsOrRefusal, OfBits};

linked! { "gatulefo_";
    fn i64x2_splat(value: i64) -> V128;
    fn i32x4_splat(value: i32) -> V128;
    fn i16x8_splat(value: i16) -> V128;
    fn i8x16_splat(value: i8) -> V128;
    fn f32x4_splat(value: f32) -> V128;
    fn f64x2_splat(value: f64) -> V128;
}

// A lane that can be made is never refused, so the number of a refusal, which comes back beside the bits, is not read.
macro_rules! extracts {
    ( $( fn $name:ident(v128: V128, lane: $lane:ident) -> $ty:ty; )* ) => { $(
        #[doc = concat!("Executes a Wasm `", stringify!($name), "` instruction.")]
        #[inline]
        pub fn $name(v128: V128, lane: $lane) -> $ty {
            <$ty>::of_bits(call!("gatulefo_" $name(v128: V128, lane: $lane) -> BitsOrRefusal).bits)
        }
    )* };
}
extracts! {
    fn i64x2_extract_lane(v128: V128, lane: ImmLaneIdx2) -> i64;
    fn i32x4_extract_lane(v128: V128, lane: ImmLaneIdx4) -> i32;
    fn f64x2_extract_lane(v128: V128, lane: ImmLaneIdx2) -> f64;
    fn f32x4_extract_lane(v128: V128, lane: ImmLaneIdx4) -> f32;
    fn i8x16_extract_lane_s(v128: V128, lane: ImmLaneIdx16) -> i32;
    fn i8x16_extract_lane_u(v128: V128, lane: ImmLaneIdx16) -> u32;
    fn i16x8_extract_lane_s(v128: V128, lane: ImmLaneIdx8) -> i32;
    fn i16x8_extract_lane_u(v128: V128, lane: ImmLaneIdx8) -> u32;
}

// These hand back the vector alone.
linked! { "gatulefo_value_";
    fn i64x2_replace_lane(v128: V128, lane: ImmLaneIdx2, item: i64) -> V128;
    fn i32x4_replace_lane(v128: V128, lane: ImmLaneIdx4, item: i32) -> V128;
    fn i16x8_replace_lane(v128: V128, lane: ImmLaneIdx8, item: i16) -> V128;
    fn i8x16_replace_lane(v128: V128, lane: ImmLaneIdx16, item: i8) -> V128;
    fn f64x2_replace_lane(v128: V128, lane: ImmLaneIdx2, item: f64) -> V128;
    fn f32x4_replace_lane(v128: V128, lane: ImmLaneIdx4, item: f32) -> V128;
}

/// Executes a Wasm `i8x16.shuffle` instruction.
#[inline]
pub fn i8x16_shuffle(a: V128, b: V128, s: [ImmLaneIdx32; 16]) -> V128 {
    let s = V128::from(s.map(u8::from));
    call!("gatulefo_value_" i8x16_shuffle(a: V128, b: V128, s: V128) -> V128)
}

linked! { "gatulefo_";
    fn i8x16_swizzle(a: V128, s: V128) -> V128;
}
