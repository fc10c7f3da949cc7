//! Operations between lanes of two widths, and bits widened to a vector.

use crate::V128;

linked! { "gatulefo_";
    fn i16x8_extend_low_i8x16_s(v: V128) -> V128;
    fn i16x8_extend_low_i8x16_u(v: V128) -> V128;
    fn i32x4_extend_low_i16x8_s(v: V128) -> V128;
    fn i32x4_extend_low_i16x8_u(v: V128) -> V128;
    fn i64x2_extend_low_i32x4_s(v: V128) -> V128;
    fn i64x2_extend_low_i32x4_u(v: V128) -> V128;
    fn i16x8_extend_high_i8x16_s(v: V128) -> V128;
    fn i16x8_extend_high_i8x16_u(v: V128) -> V128;
    fn i32x4_extend_high_i16x8_s(v: V128) -> V128;
    fn i32x4_extend_high_i16x8_u(v: V128) -> V128;
    fn i64x2_extend_high_i32x4_s(v: V128) -> V128;
    fn i64x2_extend_high_i32x4_u(v: V128) -> V128;
    fn i16x8_extmul_low_i8x16_s(lhs: V128, rhs: V128) -> V128;
    fn i16x8_extmul_low_i8x16_u(lhs: V128, rhs: V128) -> V128;
    fn i32x4_extmul_low_i16x8_s(lhs: V128, rhs: V128) -> V128;
    fn i32x4_extmul_low_i16x8_u(lhs: V128, rhs: V128) -> V128;
    fn i64x2_extmul_low_i32x4_s(lhs: V128, rhs: V128) -> V128;
    fn i64x2_extmul_low_i32x4_u(lhs: V128, rhs: V128) -> V128;
    fn i16x8_extmul_high_i8x16_s(lhs: V128, rhs: V128) -> V128;
    fn i16x8_extmul_high_i8x16_u(lhs: V128, rhs: V128) -> V128;
    fn i32x4_extmul_high_i16x8_s(lhs: V128, rhs: V128) -> V128;
    fn i32x4_extmul_high_i16x8_u(lhs: V128, rhs: V128) -> V128;
    fn i64x2_extmul_high_i32x4_s(lhs: V128, rhs: V128) -> V128;
    fn i64x2_extmul_high_i32x4_u(lhs: V128, rhs: V128) -> V128;
    fn i16x8_extadd_pairwise_i8x16_s(v: V128) -> V128;
    fn i16x8_extadd_pairwise_i8x16_u(v: V128) -> V128;
    fn i32x4_extadd_pairwise_i16x8_s(v: V128) -> V128;
    fn i32x4_extadd_pairwise_i16x8_u(v: V128) -> V128;
    fn i8x16_narrow_i16x8_s(low: V128, high: V128) -> V128;
    fn i8x16_narrow_i16x8_u(low: V128, high: V128) -> V128;
    fn i16x8_narrow_i32x4_s(low: V128, high: V128) -> V128;
    fn i16x8_narrow_i32x4_u(low: V128, high: V128) -> V128;
    fn i32x4_dot_i16x8_s(lhs: V128, rhs: V128) -> V128;
    fn v128_low32_zero(bits: u32) -> V128;
    fn v128_low64_zero(bits: u64) -> V128;
    fn v128_widen8x8_s(bits: u64) -> V128;
    fn v128_widen8x8_u(bits: u64) -> V128;
    fn v128_widen16x4_s(bits: u64) -> V128;
    fn v128_widen16x4_u(bits: u64) -> V128;
    fn v128_widen32x2_s(bits: u64) -> V128;
    fn v128_widen32x2_u(bits: u64) -> V128;
}
