//! Operations that work lane by lane: two operands, one, comparisons, the bitwise ones.

use crate::simd;
use crate::table::{Entry, Lane, Shape};
use crate::wire::{Outcome, Request};

fn bitselect(request: &Request, _: &mut [u8]) -> Result<Outcome, u8> {
    Ok(simd::v128_bitselect(request.a.into(), request.b.into(), request.c.into()).into())
}

fn arithmetic() -> Vec<Entry> {
    binary! {
        fn i64x2_add(I64);
        fn i32x4_add(I32);
        fn i16x8_add(I16);
        fn i8x16_add(I8);
        fn i64x2_sub(I64);
        fn i32x4_sub(I32);
        fn i16x8_sub(I16);
        fn i8x16_sub(I8);
        fn i64x2_mul(I64);
        fn i32x4_mul(I32);
        fn i16x8_mul(I16);
        fn i8x16_mul(I8);
        fn i8x16_add_sat_s(I8);
        fn i8x16_add_sat_u(I8);
        fn i16x8_add_sat_s(I16);
        fn i16x8_add_sat_u(I16);
        fn i8x16_sub_sat_s(I8);
        fn i8x16_sub_sat_u(I8);
        fn i16x8_sub_sat_s(I16);
        fn i16x8_sub_sat_u(I16);
        fn i16x8_q15mulr_sat_s(I16);
        fn i8x16_min_s(I8);
        fn i8x16_min_u(I8);
        fn i16x8_min_s(I16);
        fn i16x8_min_u(I16);
        fn i32x4_min_s(I32);
        fn i32x4_min_u(I32);
        fn i8x16_max_s(I8);
        fn i8x16_max_u(I8);
        fn i16x8_max_s(I16);
        fn i16x8_max_u(I16);
        fn i32x4_max_s(I32);
        fn i32x4_max_u(I32);
        fn i8x16_avgr_u(I8);
        fn i16x8_avgr_u(I16);
        fn v128_and(I64);
        fn v128_or(I64);
        fn v128_xor(I64);
        fn v128_andnot(I64);
        fn f32x4_pmin(F32);
        fn f64x2_pmin(F64);
        fn f32x4_pmax(F32);
        fn f64x2_pmax(F64);
    }
}

fn comparisons() -> Vec<Entry> {
    binary! {
        fn i8x16_eq(I8);
        fn i16x8_eq(I16);
        fn i32x4_eq(I32);
        fn i64x2_eq(I64);
        fn f32x4_eq(F32);
        fn f64x2_eq(F64);
        fn i8x16_ne(I8);
        fn i16x8_ne(I16);
        fn i32x4_ne(I32);
        fn i64x2_ne(I64);
        fn f32x4_ne(F32);
        fn f64x2_ne(F64);
        fn i8x16_lt_s(I8);
        fn i8x16_lt_u(I8);
        fn i16x8_lt_s(I16);
        fn i16x8_lt_u(I16);
        fn i32x4_lt_s(I32);
        fn i32x4_lt_u(I32);
        fn i64x2_lt_s(I64);
        fn f32x4_lt(F32);
        fn f64x2_lt(F64);
        fn i8x16_le_s(I8);
        fn i8x16_le_u(I8);
        fn i16x8_le_s(I16);
        fn i16x8_le_u(I16);
        fn i32x4_le_s(I32);
        fn i32x4_le_u(I32);
        fn i64x2_le_s(I64);
        fn f32x4_le(F32);
        fn f64x2_le(F64);
        fn i8x16_gt_s(I8);
        fn i8x16_gt_u(I8);
        fn i16x8_gt_s(I16);
        fn i16x8_gt_u(I16);
        fn i32x4_gt_s(I32);
        fn i32x4_gt_u(I32);
        fn i64x2_gt_s(I64);
        fn f32x4_gt(F32);
        fn f64x2_gt(F64);
        fn i8x16_ge_s(I8);
        fn i8x16_ge_u(I8);
        fn i16x8_ge_s(I16);
        fn i16x8_ge_u(I16);
        fn i32x4_ge_s(I32);
        fn i32x4_ge_u(I32);
        fn i64x2_ge_s(I64);
        fn f32x4_ge(F32);
        fn f64x2_ge(F64);
    }
}

fn unaries() -> Vec<Entry> {
    unary! {
        fn i64x2_neg(I64);
        fn i32x4_neg(I32);
        fn i16x8_neg(I16);
        fn i8x16_neg(I8);
        fn i8x16_abs(I8);
        fn i16x8_abs(I16);
        fn i32x4_abs(I32);
        fn i64x2_abs(I64);
        fn v128_not(I64);
        fn i8x16_popcnt(I8);
        fn f32x4_neg(F32);
        fn f64x2_neg(F64);
        fn f32x4_abs(F32);
        fn f64x2_abs(F64);
    }
}

pub fn entries() -> Vec<Entry> {
    let select = vec![Entry { name: "v128_bitselect", shape: Shape::Select, call: bitselect }];
    [arithmetic(), comparisons(), unaries(), select].concat()
}
