//! The relaxed instructions: the plain operations under their relaxed names, and the two dots.

use crate::simd;
use crate::table::{Entry, Lane, Shape};

macro_rules! two {
    ( $( fn $name:ident($shape:expr); )* ) => { vec![ $( Entry {
        name: stringify!($name),
        shape: $shape,
        call: |request, _| Ok(simd::$name(request.a.into(), request.b.into()).into()),
    } ),* ] };
}

macro_rules! three {
    ( $( fn $name:ident($shape:expr); )* ) => { vec![ $( Entry {
        name: stringify!($name),
        shape: $shape,
        call: |request, _| Ok(simd::$name(request.a.into(), request.b.into(), request.c.into()).into()),
    } ),* ] };
}

pub fn entries() -> Vec<Entry> {
    let two = two! {
        fn i8x16_relaxed_swizzle(Shape::Swizzle);
        fn f32x4_relaxed_min(Shape::Arithmetic(Lane::F32));
        fn f32x4_relaxed_max(Shape::Arithmetic(Lane::F32));
        fn f64x2_relaxed_min(Shape::Arithmetic(Lane::F64));
        fn f64x2_relaxed_max(Shape::Arithmetic(Lane::F64));
        fn i16x8_relaxed_q15mulr_s(Shape::Binary(Lane::I16));
        fn i16x8_relaxed_dot_i8x16_i7x16_s(Shape::Dot);
    };
    let three = three! {
        fn i8x16_relaxed_laneselect(Shape::Select);
        fn i16x8_relaxed_laneselect(Shape::Select);
        fn i32x4_relaxed_laneselect(Shape::Select);
        fn i64x2_relaxed_laneselect(Shape::Select);
        fn i32x4_relaxed_dot_i8x16_i7x16_add_s(Shape::Dot);
    };
    [two, three].concat()
}
