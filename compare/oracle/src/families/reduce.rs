//! All-true, any-true, bitmask.

use crate::simd;
use crate::table::{Entry, Lane, Shape};

macro_rules! reduce {
    ( $( fn $name:ident($lane:ident); )* ) => { vec![ $( Entry {
        name: stringify!($name),
        shape: Shape::Reduce(Lane::$lane),
        call: |request, _| Ok(simd::$name(request.a.into()).into()),
    } ),* ] };
}

pub fn entries() -> Vec<Entry> {
    reduce! {
        fn i8x16_all_true(I8);
        fn i16x8_all_true(I16);
        fn i32x4_all_true(I32);
        fn i64x2_all_true(I64);
        fn i8x16_bitmask(I8);
        fn i16x8_bitmask(I16);
        fn i32x4_bitmask(I32);
        fn i64x2_bitmask(I64);
        fn v128_any_true(I64);
    }
}
