//! The packed forms: each half of a vector as one number, with the answers of the functions of the same names in [`simd`](crate::simd).

use crate::V128;

linked! { "gatulefo_packed_";
    fn i64x2_add(a: V128, b: V128) -> V128;
    fn i32x4_add(a: V128, b: V128) -> V128;
    fn i16x8_add(a: V128, b: V128) -> V128;
    fn i8x16_add(a: V128, b: V128) -> V128;
    fn i64x2_sub(a: V128, b: V128) -> V128;
    fn i32x4_sub(a: V128, b: V128) -> V128;
    fn i16x8_sub(a: V128, b: V128) -> V128;
    fn i8x16_sub(a: V128, b: V128) -> V128;
    fn i8x16_avgr_u(a: V128, b: V128) -> V128;
    fn i16x8_avgr_u(a: V128, b: V128) -> V128;
    fn i64x2_neg(a: V128) -> V128;
    fn i32x4_neg(a: V128) -> V128;
    fn i16x8_neg(a: V128) -> V128;
    fn i8x16_neg(a: V128) -> V128;
    fn i8x16_popcnt(a: V128) -> V128;
    fn i8x16_eq(a: V128, b: V128) -> V128;
    fn i16x8_eq(a: V128, b: V128) -> V128;
    fn i32x4_eq(a: V128, b: V128) -> V128;
    fn i64x2_eq(a: V128, b: V128) -> V128;
    fn i8x16_shl(a: V128, count: u32) -> V128;
    fn i16x8_shl(a: V128, count: u32) -> V128;
    fn i32x4_shl(a: V128, count: u32) -> V128;
    fn i64x2_shl(a: V128, count: u32) -> V128;
    fn i8x16_shr_u(a: V128, count: u32) -> V128;
    fn i16x8_shr_u(a: V128, count: u32) -> V128;
    fn i32x4_shr_u(a: V128, count: u32) -> V128;
    fn i64x2_shr_u(a: V128, count: u32) -> V128;
    fn i8x16_all_true(a: V128) -> bool;
    fn i16x8_all_true(a: V128) -> bool;
    fn i32x4_all_true(a: V128) -> bool;
    fn i64x2_all_true(a: V128) -> bool;
    fn i8x16_bitmask(a: V128) -> u32;
    fn i16x8_bitmask(a: V128) -> u32;
    fn i32x4_bitmask(a: V128) -> u32;
    fn i64x2_bitmask(a: V128) -> u32;
    fn v128_any_true(a: V128) -> bool;
}
