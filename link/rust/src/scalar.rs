//! What an extract hands back.

use crate::Refusal;

/// The bits of a lane, or the number of a refusal: the archive's own struct.
#[repr(C)]
pub struct BitsOrRefusal {
    pub bits: u64,
    refused: u8,
}

impl BitsOrRefusal {
    #[inline]
    pub fn checked<T: OfBits>(self) -> Result<T, Refusal> {
        Refusal::of(self.refused, 0).map_or_else(|| Ok(T::of_bits(self.bits)), Err)
    }
}

/// A scalar of the bits that come back.
pub trait OfBits {
    fn of_bits(bits: u64) -> Self;
}

macro_rules! of_bits {
    ( $( $ty:ty: $how:expr; )* ) => { $(
        impl OfBits for $ty {
            #[inline]
            fn of_bits(bits: u64) -> Self {
                $how(bits)
            }
        }
    )* };
}
of_bits! {
    i32: |bits| bits as i32;
    u32: |bits| bits as u32;
    i64: |bits| bits as i64;
    f32: |bits| f32::from_bits(bits as u32);
    f64: f64::from_bits;
}
