//! Splat, extract, replace, shuffle, swizzle.

use super::lane;
use crate::simd::{self, ImmLaneIdx32};
use crate::table::{Entry, Lane, Shape};
use crate::wire::{INDEX_REFUSED, Outcome, Request};

/// A scalar of which the request carries the bits; the low ones count.
trait Scalar {
    fn of_bits(bits: u64) -> Self;
}

macro_rules! impl_scalar {
    ( $( $ty:ty: $bits:ident => $value:expr; )* ) => { $(
        impl Scalar for $ty {
            fn of_bits($bits: u64) -> Self {
                $value
            }
        }
    )* };
}
impl_scalar! {
    i8: bits => bits as i8;
    i16: bits => bits as i16;
    i32: bits => bits as i32;
    i64: bits => bits as i64;
    f32: bits => f32::from_bits(bits as u32);
    f64: bits => f64::from_bits(bits);
}

macro_rules! splats {
    ( $( fn $name:ident($ty:ty: $lane:ident); )* ) => { vec![ $( Entry {
        name: stringify!($name),
        shape: Shape::Splat(Lane::$lane),
        call: |request, _| Ok(simd::$name(<$ty>::of_bits(request.scalar)).into()),
    } ),* ] };
}

macro_rules! extracts {
    ( $( fn $name:ident($lane:ident: $lanes:literal); )* ) => { vec![ $( Entry {
        name: stringify!($name),
        shape: Shape::Extract(Lane::$lane),
        call: |request, _| Ok(simd::$name(request.a.into(), lane::<$lanes>(request.lane)?).into()),
    } ),* ] };
}

macro_rules! replaces {
    ( $( fn $name:ident($ty:ty, $lane:ident: $lanes:literal); )* ) => { vec![ $( Entry {
        name: stringify!($name),
        shape: Shape::Replace(Lane::$lane),
        call: |request, _| {
            let lane = lane::<$lanes>(request.lane)?;
            Ok(simd::$name(request.a.into(), lane, <$ty>::of_bits(request.scalar)).into())
        },
    } ),* ] };
}

fn shuffle(request: &Request, _: &mut [u8]) -> Result<Outcome, u8> {
    let mut indices = [ImmLaneIdx32::try_from(0).map_err(|_| INDEX_REFUSED)?; 16];
    for (index, byte) in indices.iter_mut().zip(request.c) {
        *index = ImmLaneIdx32::try_from(byte).map_err(|_| INDEX_REFUSED)?;
    }
    Ok(simd::i8x16_shuffle(request.a.into(), request.b.into(), indices).into())
}

fn swizzle(request: &Request, _: &mut [u8]) -> Result<Outcome, u8> {
    Ok(simd::i8x16_swizzle(request.a.into(), request.b.into()).into())
}

pub fn entries() -> Vec<Entry> {
    let splats = splats! {
        fn i64x2_splat(i64: I64);
        fn i32x4_splat(i32: I32);
        fn i16x8_splat(i16: I16);
        fn i8x16_splat(i8: I8);
        fn f32x4_splat(f32: F32);
        fn f64x2_splat(f64: F64);
    };
    let extracts = extracts! {
        fn i64x2_extract_lane(I64: 2);
        fn i32x4_extract_lane(I32: 4);
        fn f64x2_extract_lane(F64: 2);
        fn f32x4_extract_lane(F32: 4);
        fn i8x16_extract_lane_s(I8: 16);
        fn i8x16_extract_lane_u(I8: 16);
        fn i16x8_extract_lane_s(I16: 8);
        fn i16x8_extract_lane_u(I16: 8);
    };
    let replaces = replaces! {
        fn i64x2_replace_lane(i64, I64: 2);
        fn i32x4_replace_lane(i32, I32: 4);
        fn i16x8_replace_lane(i16, I16: 8);
        fn i8x16_replace_lane(i8, I8: 16);
        fn f64x2_replace_lane(f64, F64: 2);
        fn f32x4_replace_lane(f32, F32: 4);
    };
    let rearrange = vec![
        Entry { name: "i8x16_shuffle", shape: Shape::Shuffle, call: shuffle },
        Entry { name: "i8x16_swizzle", shape: Shape::Swizzle, call: swizzle },
    ];
    [splats, extracts, replaces, rearrange].concat()
}
