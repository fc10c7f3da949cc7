//! One operation over a whole row of vectors, written over the first row (document 02, order 6). [`half_rows`](crate::half_rows) does the same over rows of halves.
//!
//! ```
//! use gatulefo::{Refusal, V128, rows};
//!
//! let mut first = [V128::from(1), V128::from(2)];
//! assert_eq!(rows::i8x16_add(&mut first, &[V128::from(0x10), V128::from(0x20)]), Ok(()));
//! assert_eq!(first, [V128::from(0x11), V128::from(0x22)]);
//! assert_eq!(rows::v128_xor(&mut first, &[]), Err(Refusal { number: 12, shortfall: 0 }));
//! rows::i8x16_popcnt(&mut first);
//! assert_eq!(first, [V128::from(2), V128::from(2)]);
//! ```

use crate::{Refusal, V128};

/// `i8x16_add` of each two vectors at one place.
///
/// # Errors
///
/// 12 where the rows differ in length; nothing is written then.
pub fn i8x16_add(first: &mut [V128], second: &[V128]) -> Result<(), Refusal> {
    Refusal::or(call!("gatulefo_vector_row_" i8x16_add(first: &mut [V128], second: &[V128]) -> u8), ())
}

/// `v128_xor` of each two vectors at one place.
///
/// # Errors
///
/// 12 where the rows differ in length; nothing is written then.
pub fn v128_xor(first: &mut [V128], second: &[V128]) -> Result<(), Refusal> {
    Refusal::or(call!("gatulefo_vector_row_" v128_xor(first: &mut [V128], second: &[V128]) -> u8), ())
}

/// `i8x16_popcnt` of each vector.
pub fn i8x16_popcnt(first: &mut [V128]) {
    call!("gatulefo_vector_row_" i8x16_popcnt(first: &mut [V128]) -> ())
}
