//! Operations between lanes of two widths (extend, extended multiply, pairwise add, narrow, dot), shifts, and bits widened to a vector.
//! The lane given is the one that is read.

use crate::simd;
use crate::table::{Entry, Lane, Shape};

macro_rules! shifts {
    ( $( fn $name:ident($lane:ident); )* ) => { vec![ $( Entry {
        name: stringify!($name),
        shape: Shape::Shift(Lane::$lane),
        call: |request, _| Ok(simd::$name(request.a.into(), request.count).into()),
    } ),* ] };
}

macro_rules! bits {
    ( $( fn $name:ident($ty:ty); )* ) => { vec![ $( Entry {
        name: stringify!($name),
        shape: Shape::Bits,
        call: |request, _| Ok(simd::$name(request.scalar as $ty).into()),
    } ),* ] };
}

fn unaries() -> Vec<Entry> {
    unary! {
        fn i16x8_extend_low_i8x16_s(I8);
        fn i16x8_extend_low_i8x16_u(I8);
        fn i32x4_extend_low_i16x8_s(I16);
        fn i32x4_extend_low_i16x8_u(I16);
        fn i64x2_extend_low_i32x4_s(I32);
        fn i64x2_extend_low_i32x4_u(I32);
        fn i16x8_extend_high_i8x16_s(I8);
        fn i16x8_extend_high_i8x16_u(I8);
        fn i32x4_extend_high_i16x8_s(I16);
        fn i32x4_extend_high_i16x8_u(I16);
        fn i64x2_extend_high_i32x4_s(I32);
        fn i64x2_extend_high_i32x4_u(I32);
        fn i16x8_extadd_pairwise_i8x16_s(I8);
        fn i16x8_extadd_pairwise_i8x16_u(I8);
        fn i32x4_extadd_pairwise_i16x8_s(I16);
        fn i32x4_extadd_pairwise_i16x8_u(I16);
    }
}

fn binaries() -> Vec<Entry> {
    binary! {
        fn i16x8_extmul_low_i8x16_s(I8);
        fn i16x8_extmul_low_i8x16_u(I8);
        fn i32x4_extmul_low_i16x8_s(I16);
        fn i32x4_extmul_low_i16x8_u(I16);
        fn i64x2_extmul_low_i32x4_s(I32);
        fn i64x2_extmul_low_i32x4_u(I32);
        fn i16x8_extmul_high_i8x16_s(I8);
        fn i16x8_extmul_high_i8x16_u(I8);
        fn i32x4_extmul_high_i16x8_s(I16);
        fn i32x4_extmul_high_i16x8_u(I16);
        fn i64x2_extmul_high_i32x4_s(I32);
        fn i64x2_extmul_high_i32x4_u(I32);
        fn i8x16_narrow_i16x8_s(I16);
        fn i8x16_narrow_i16x8_u(I16);
        fn i16x8_narrow_i32x4_s(I32);
        fn i16x8_narrow_i32x4_u(I32);
        fn i32x4_dot_i16x8_s(I16);
    }
}

fn shifts() -> Vec<Entry> {
    shifts! {
        fn i8x16_shl(I8);
        fn i16x8_shl(I16);
        fn i32x4_shl(I32);
        fn i64x2_shl(I64);
        fn i8x16_shr_s(I8);
        fn i8x16_shr_u(I8);
        fn i16x8_shr_s(I16);
        fn i16x8_shr_u(I16);
        fn i32x4_shr_s(I32);
        fn i32x4_shr_u(I32);
        fn i64x2_shr_s(I64);
        fn i64x2_shr_u(I64);
    }
}

fn bits() -> Vec<Entry> {
    bits! {
        fn v128_low32_zero(u32);
        fn v128_low64_zero(u64);
        fn v128_widen8x8_s(u64);
        fn v128_widen8x8_u(u64);
        fn v128_widen16x4_s(u64);
        fn v128_widen16x4_u(u64);
        fn v128_widen32x2_s(u64);
        fn v128_widen32x2_u(u64);
    }
}

pub fn entries() -> Vec<Entry> {
    [unaries(), binaries(), shifts(), bits()].concat()
}
