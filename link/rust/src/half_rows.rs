//! One operation over a whole row of 64-bit halves, two a vector, the low one first, written over the first row (document 02, order 6).
//!
//! ```
//! use gatulefo::{Refusal, half_rows};
//!
//! let mut first = [1, 2];
//! assert_eq!(half_rows::v128_xor(&mut first, &[3, 3]), Ok(()));
//! assert_eq!(first, [2, 1]);
//! assert_eq!(half_rows::i8x16_add(&mut first, &[0; 4]), Err(Refusal { number: 12, shortfall: 0 }));
//! assert_eq!(half_rows::i8x16_popcnt(&mut first[..1]), Err(Refusal { number: 12, shortfall: 0 }));
//! ```

use crate::Refusal;

/// `i8x16_add` of each two vectors at one place.
///
/// # Errors
///
/// 12 where the rows differ in length or their number of halves is odd; nothing is written then.
pub fn i8x16_add(first: &mut [u64], second: &[u64]) -> Result<(), Refusal> {
    Refusal::or(call!("gatulefo_row_" i8x16_add(first: &mut [u64], second: &[u64]) -> u8), ())
}

/// `v128_xor` of each two vectors at one place.
///
/// # Errors
///
/// 12 where the rows differ in length or their number of halves is odd; nothing is written then.
pub fn v128_xor(first: &mut [u64], second: &[u64]) -> Result<(), Refusal> {
    Refusal::or(call!("gatulefo_row_" v128_xor(first: &mut [u64], second: &[u64]) -> u8), ())
}

/// `i8x16_popcnt` of each vector.
///
/// # Errors
///
/// 12 where the row's number of halves is odd; nothing is written then.
pub fn i8x16_popcnt(first: &mut [u64]) -> Result<(), Refusal> {
    Refusal::or(call!("gatulefo_row_" i8x16_popcnt(first: &mut [u64]) -> u8), ())
}
