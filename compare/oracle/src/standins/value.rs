//! STAND-IN, not the original: `wasmi_core::value::Float`. Only the multiply-adds use it, and they are not carried over: no request
//! reaches it.

use std::ops::Neg;

/// A float number.
pub trait Float: Neg<Output = Self> + Sized {
    fn mul_add(a: Self, b: Self, c: Self) -> Self;
}

macro_rules! impl_float {
    ( $( $ty:ty ),* ) => { $(
        impl Float for $ty {
            fn mul_add(_a: Self, _b: Self, _c: Self) -> Self {
                unimplemented!("not carried over")
            }
        }
    )* };
}
impl_float!(f32, f64);
