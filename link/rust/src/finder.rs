//! The marker finder (document 02, order 5).

use crate::Refusal;

/// Where a marker stands, and stands again one frame later.
#[derive(Debug, Copy, Clone, PartialEq, Eq)]
pub struct Position {
    /// The bit position, counted from the top bit of the first byte.
    pub position: usize,
    /// In how many bits the 32 bits there differ from the marker.
    pub first: u32,
    /// In how many bits those one frame later do.
    pub second: u32,
}

#[repr(C)]
struct PositionOrRefusal {
    position: usize,
    first: u32,
    second: u32,
    refused: u8,
}

/// The smallest bit position at which the marker stands and stands again `length` bits later, each off by at most `tolerance` bits.
///
/// # Errors
///
/// 8 tolerance above 8; 9 length outside 64 to 65,536; 10 buffer above 65,536 bytes or shorter than length + 32 bits; 11 none; in that order.
///
/// ```
/// use gatulefo::finder::{Position, find};
///
/// let mut capture = [0; 16];
/// capture[1..5].copy_from_slice(&0x1acf_fc1d_u32.to_be_bytes());
/// capture[9..13].copy_from_slice(&0x1acf_fc1f_u32.to_be_bytes());
/// assert_eq!(find(&capture, 0x1acf_fc1d, 2, 64), Ok(Position { position: 8, first: 0, second: 1 }));
/// assert_eq!(find(&capture, 0x1acf_fc1d, 0, 64).map_err(|refusal| refusal.number), Err(11));
/// ```
pub fn find(buffer: &[u8], marker: u32, tolerance: u32, length: u32) -> Result<Position, Refusal> {
    let found = call!("gatulefo_" find(buffer: &[u8], marker: u32, tolerance: u32, length: u32) -> PositionOrRefusal);
    Refusal::or(found.refused, Position { position: found.position, first: found.first, second: found.second })
}
