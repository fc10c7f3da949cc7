//! Chains of shuffles (document 02, order 13).

use crate::Refusal;

/// A link of a chain: its partner, 0 for a, 1 for b, any other number for the current vector itself, and its sixteen indices.
pub type Link = [u8; 17];

/// The sixteen indices of the one shuffle of a and b that does what the chain does.
///
/// # Errors
///
/// 18 where there are more than 16 links, then 5 where an index is above 31.
///
/// ```
/// use gatulefo::{Refusal, chain};
///
/// // Byte 0 of the current vector in every place, by the partner b: once, and once more.
/// let link = [1; 1].into_iter().chain([0; 16]).collect::<Vec<u8>>().try_into().unwrap();
/// assert_eq!(chain::fold(&[link, link]), Ok([0; 16]));
/// assert_eq!(chain::fold(&[]), Ok([0, 1, 2, 3, 4, 5, 6, 7, 8, 9, 10, 11, 12, 13, 14, 15]));
/// assert_eq!(chain::fold(&[link; 17]), Err(Refusal { number: 18, shortfall: 0 }));
/// ```
pub fn fold(links: &[Link]) -> Result<[u8; 16], Refusal> {
    let mut indices = [0; 16];
    let out = &mut indices;
    let refused = call!("gatulefo_" fold(links: &[[u8; 17]], out: &mut [u8; 16]) -> u8);
    Refusal::or(refused, indices)
}
