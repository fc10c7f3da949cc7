//! The packed forms, which simd.rs has not: each answers as the function of its name.

use crate::table::{Entry, Lane, Shape};
use gatulefo::packed;

macro_rules! forms {
    ( $shape:ident: $( fn $name:ident($lane:ident $(, $argument:ident )* ); )* ) => { vec![ $( Entry {
        name: stringify!($name),
        shape: Shape::$shape(Lane::$lane),
        call: |request, _| Ok(packed::$name(request.a.into() $(, request.$argument.into() )* ).into()),
    } ),* ] };
}

fn binaries() -> Vec<Entry> {
    forms! { Binary:
        fn i64x2_add(I64, b);
        fn i32x4_add(I32, b);
        fn i16x8_add(I16, b);
        fn i8x16_add(I8, b);
        fn i64x2_sub(I64, b);
        fn i32x4_sub(I32, b);
        fn i16x8_sub(I16, b);
        fn i8x16_sub(I8, b);
        fn i8x16_avgr_u(I8, b);
        fn i16x8_avgr_u(I16, b);
        fn i8x16_eq(I8, b);
        fn i16x8_eq(I16, b);
        fn i32x4_eq(I32, b);
        fn i64x2_eq(I64, b);
    }
}

fn unaries() -> Vec<Entry> {
    forms! { Unary:
        fn i64x2_neg(I64);
        fn i32x4_neg(I32);
        fn i16x8_neg(I16);
        fn i8x16_neg(I8);
        fn i8x16_popcnt(I8);
    }
}

fn shifts() -> Vec<Entry> {
    forms! { Shift:
        fn i8x16_shl(I8, count);
        fn i16x8_shl(I16, count);
        fn i32x4_shl(I32, count);
        fn i64x2_shl(I64, count);
        fn i8x16_shr_u(I8, count);
        fn i16x8_shr_u(I16, count);
        fn i32x4_shr_u(I32, count);
        fn i64x2_shr_u(I64, count);
    }
}

fn reductions() -> Vec<Entry> {
    forms! { Reduce:
        fn i8x16_all_true(I8);
        fn i16x8_all_true(I16);
        fn i32x4_all_true(I32);
        fn i64x2_all_true(I64);
        fn i8x16_bitmask(I8);
        fn i16x8_bitmask(I16);
        fn i32x4_bitmask(I32);
        fn i64x2_bitmask(I64);
        fn v128_any_true(I64);
    }
}

pub fn entries() -> Vec<Entry> {
    [binaries(), unaries(), shifts(), reductions()].concat()
}
