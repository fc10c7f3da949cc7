//! Float arithmetic, floats rounded to whole numbers, conversions.

use crate::simd;
use crate::table::{Entry, Lane, Shape};

macro_rules! arithmetic {
    ( $( fn $name:ident($lane:ident); )* ) => { vec![ $( Entry {
        name: stringify!($name),
        shape: Shape::Arithmetic(Lane::$lane),
        call: |request, _| Ok(simd::$name(request.a.into(), request.b.into()).into()),
    } ),* ] };
}

macro_rules! converted {
    ( $( fn $name:ident($reads:ident) -> $gives:ident; )* ) => { vec![ $( Entry {
        name: stringify!($name),
        shape: Shape::Converted { reads: Lane::$reads, gives: Lane::$gives },
        call: |request, _| Ok(simd::$name(request.a.into()).into()),
    } ),* ] };
}

fn arithmetic() -> Vec<Entry> {
    arithmetic! {
        fn f32x4_min(F32);
        fn f64x2_min(F64);
        fn f32x4_max(F32);
        fn f64x2_max(F64);
        fn f32x4_add(F32);
        fn f64x2_add(F64);
        fn f32x4_sub(F32);
        fn f64x2_sub(F64);
        fn f32x4_div(F32);
        fn f64x2_div(F64);
        fn f32x4_mul(F32);
        fn f64x2_mul(F64);
    }
}

fn converted() -> Vec<Entry> {
    converted! {
        fn f32x4_ceil(F32) -> F32;
        fn f64x2_ceil(F64) -> F64;
        fn f32x4_floor(F32) -> F32;
        fn f64x2_floor(F64) -> F64;
        fn f32x4_trunc(F32) -> F32;
        fn f64x2_trunc(F64) -> F64;
        fn f32x4_nearest(F32) -> F32;
        fn f64x2_nearest(F64) -> F64;
        fn f32x4_convert_i32x4_s(I32) -> F32;
        fn f32x4_convert_i32x4_u(I32) -> F32;
        fn i32x4_trunc_sat_f32x4_s(F32) -> I32;
        fn i32x4_trunc_sat_f32x4_u(F32) -> I32;
        fn f64x2_convert_low_i32x4_s(I32) -> F64;
        fn f64x2_convert_low_i32x4_u(I32) -> F64;
        fn f64x2_promote_low_f32x4(F32) -> F64;
        fn i32x4_trunc_sat_f64x2_s_zero(F64) -> I32;
        fn i32x4_trunc_sat_f64x2_u_zero(F64) -> I32;
        fn f32x4_demote_f64x2_zero(F64) -> F32;
    }
}

pub fn entries() -> Vec<Entry> {
    [arithmetic(), converted()].concat()
}
