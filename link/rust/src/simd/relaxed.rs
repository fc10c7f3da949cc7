//! The relaxed instructions, each as simd.rs chooses.

use crate::V128;

linked! { "gatulefo_";
    fn i16x8_relaxed_dot_i8x16_i7x16_s(lhs: V128, rhs: V128) -> V128;
    fn i32x4_relaxed_dot_i8x16_i7x16_add_s(lhs: V128, rhs: V128, c: V128) -> V128;
    fn i8x16_relaxed_swizzle(a: V128, s: V128) -> V128;
    fn i8x16_relaxed_laneselect(a: V128, b: V128, c: V128) -> V128;
    fn i16x8_relaxed_laneselect(a: V128, b: V128, c: V128) -> V128;
    fn i32x4_relaxed_laneselect(a: V128, b: V128, c: V128) -> V128;
    fn i64x2_relaxed_laneselect(a: V128, b: V128, c: V128) -> V128;
    fn f32x4_relaxed_min(lhs: V128, rhs: V128) -> V128;
    fn f32x4_relaxed_max(lhs: V128, rhs: V128) -> V128;
    fn f64x2_relaxed_min(lhs: V128, rhs: V128) -> V128;
    fn f64x2_relaxed_max(lhs: V128, rhs: V128) -> V128;
    fn i16x8_relaxed_q15mulr_s(a: V128, b: V128) -> V128;
}
