//! STAND-IN, not the original: `wasmi_core::wasm`. The operations on one float, by Rust's own operators, casts and library, as the standard has them. Square
//! roots are not carried over: no request reaches them.

macro_rules! arithmetic {
    ( $( $ty:ty: $min:ident $max:ident $add:ident $sub:ident $mul:ident $div:ident $sqrt:ident; )* ) => { $(
        /// Equal numbers have one pattern, but for the zeros: there either sign bit makes the least negative.
        pub fn $min(a: $ty, b: $ty) -> $ty {
            match (a.is_nan() || b.is_nan(), a == b) {
                (true, _) => <$ty>::NAN,
                (_, true) => <$ty>::from_bits(a.to_bits() | b.to_bits()),
                _ => a.min(b),
            }
        }

        pub fn $max(a: $ty, b: $ty) -> $ty {
            match (a.is_nan() || b.is_nan(), a == b) {
                (true, _) => <$ty>::NAN,
                (_, true) => <$ty>::from_bits(a.to_bits() & b.to_bits()),
                _ => a.max(b),
            }
        }

        pub fn $add(a: $ty, b: $ty) -> $ty {
            a + b
        }

        pub fn $sub(a: $ty, b: $ty) -> $ty {
            a - b
        }

        pub fn $mul(a: $ty, b: $ty) -> $ty {
            a * b
        }

        pub fn $div(a: $ty, b: $ty) -> $ty {
            a / b
        }

        pub fn $sqrt(_: $ty) -> $ty {
            unimplemented!("not carried over")
        }
    )* };
}

arithmetic! {
    f32: f32_min f32_max f32_add f32_sub f32_mul f32_div f32_sqrt;
    f64: f64_min f64_max f64_add f64_sub f64_mul f64_div f64_sqrt;
}

macro_rules! roundings {
    ( $( $ty:ty: $ceil:ident $floor:ident $trunc:ident $nearest:ident; )* ) => { $(
        pub fn $ceil(x: $ty) -> $ty {
            x.ceil()
        }

        pub fn $floor(x: $ty) -> $ty {
            x.floor()
        }

        pub fn $trunc(x: $ty) -> $ty {
            x.trunc()
        }

        pub fn $nearest(x: $ty) -> $ty {
            x.round_ties_even()
        }
    )* };
}

roundings! {
    f32: f32_ceil f32_floor f32_trunc f32_nearest;
    f64: f64_ceil f64_floor f64_trunc f64_nearest;
}

// Rust's casts: to a float the nearest, ties to even; to an integer toward zero, held to its range, a NaN as 0.
macro_rules! casts {
    ( $( fn $name:ident($from:ty) -> $to:ty; )* ) => { $(
        pub fn $name(x: $from) -> $to {
            x as $to
        }
    )* };
}

casts! {
    fn f32_demote_f64(f64) -> f32;
    fn f64_promote_f32(f32) -> f64;
    fn f32_convert_i32_s(i32) -> f32;
    fn f32_convert_i32_u(u32) -> f32;
    fn f64_convert_i32_s(i32) -> f64;
    fn f64_convert_i32_u(u32) -> f64;
    fn i32_trunc_sat_f32_s(f32) -> i32;
    fn i32_trunc_sat_f32_u(f32) -> u32;
    fn i32_trunc_sat_f64_s(f64) -> i32;
    fn i32_trunc_sat_f64_u(f64) -> u32;
}
