//! Calls one function of simd.rs 1,000 times, so that its instructions can be counted: bench/rust. The operands are random bits, as those of bench/instructions.

use oracle::{V128, simd};
use std::hint::black_box;

const CALLS: usize = 1000;

/// Three vectors, and the place of the result.
type Place = [[u8; 16]; 4];

fn empty(_: &mut Place) {}

macro_rules! wrappers {
    ( $( $name:ident($( $operand:literal ),*); )* ) => {
        $( #[inline(never)]
        fn $name(place: &mut Place) {
            place[3] = simd::$name($( V128::from(place[$operand]) ),*).bytes();
        } )*

        const FORMS: &[(&str, fn(&mut Place))] = &[("empty", empty), $( (stringify!($name), $name) ),*];
    };
}

wrappers! {
    f32x4_min(0, 1);
    f64x2_min(0, 1);
    f32x4_max(0, 1);
    f64x2_max(0, 1);
    f32x4_add(0, 1);
    f64x2_add(0, 1);
    f32x4_sub(0, 1);
    f64x2_sub(0, 1);
    f32x4_div(0, 1);
    f64x2_div(0, 1);
    f32x4_mul(0, 1);
    f64x2_mul(0, 1);
    f32x4_ceil(0);
    f64x2_ceil(0);
    f32x4_floor(0);
    f64x2_floor(0);
    f32x4_trunc(0);
    f64x2_trunc(0);
    f32x4_nearest(0);
    f64x2_nearest(0);
    f32x4_convert_i32x4_s(0);
    f32x4_convert_i32x4_u(0);
    i32x4_trunc_sat_f32x4_s(0);
    i32x4_trunc_sat_f32x4_u(0);
    f64x2_convert_low_i32x4_s(0);
    f64x2_convert_low_i32x4_u(0);
    f64x2_promote_low_f32x4(0);
    i32x4_trunc_sat_f64x2_s_zero(0);
    i32x4_trunc_sat_f64x2_u_zero(0);
    f32x4_demote_f64x2_zero(0);
    i16x8_relaxed_dot_i8x16_i7x16_s(0, 1);
    i32x4_relaxed_dot_i8x16_i7x16_add_s(0, 1, 2);
}

fn next(state: &mut u64) -> u64 {
    *state ^= *state << 13;
    *state ^= *state >> 7;
    *state ^= *state << 17;
    *state
}

fn main() {
    let mut arguments = std::env::args().skip(1);
    let Some(chosen) = arguments.next() else {
        FORMS.iter().for_each(|(name, _)| println!("{name}"));
        return;
    };
    let form: fn(&mut Place) = black_box(FORMS[chosen.parse::<usize>().expect("a number")].1);
    let mut state = 0x9e37_79b9_7f4a_7c15;
    let mut vector = || (u128::from(next(&mut state)) | u128::from(next(&mut state)) << 64).to_le_bytes();
    let mut places: Vec<Place> = (0..CALLS).map(|_| [vector(), vector(), vector(), [0; 16]]).collect();
    places.iter_mut().for_each(form);
    black_box(places);
}
