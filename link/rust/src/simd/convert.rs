//! Conversions between floats, integers and the other float format, and roundings to whole numbers.

use crate::V128;

linked! { "gatulefo_";
    fn f32x4_ceil(v: V128) -> V128;
    fn f64x2_ceil(v: V128) -> V128;
    fn f32x4_floor(v: V128) -> V128;
    fn f64x2_floor(v: V128) -> V128;
    fn f32x4_trunc(v: V128) -> V128;
    fn f64x2_trunc(v: V128) -> V128;
    fn f32x4_nearest(v: V128) -> V128;
    fn f64x2_nearest(v: V128) -> V128;
    fn f32x4_convert_i32x4_s(v: V128) -> V128;
    fn f32x4_convert_i32x4_u(v: V128) -> V128;
    fn i32x4_trunc_sat_f32x4_s(v: V128) -> V128;
    fn i32x4_trunc_sat_f32x4_u(v: V128) -> V128;
    fn f64x2_convert_low_i32x4_s(v: V128) -> V128;
    fn f64x2_convert_low_i32x4_u(v: V128) -> V128;
    fn f64x2_promote_low_f32x4(v: V128) -> V128;
    fn i32x4_trunc_sat_f64x2_s_zero(v: V128) -> V128;
    fn i32x4_trunc_sat_f64x2_u_zero(v: V128) -> V128;
    fn f32x4_demote_f64x2_zero(v: V128) -> V128;
}
