//! Refusals.

use core::fmt;

/// Why a call was refused: the number that documents 01 and 02 give it. A refused call has written nothing; of a run the steps before the refused one stay done.
///
/// | number | given exactly when |
/// |---|---|
/// | 1 | a list's length is not a multiple of 32, or above 8,192 |
/// | 2 | a step's operation number has no calculator step |
/// | 3 | a used register number is above 15 |
/// | 4 | a lane number is not below the lane count |
/// | 5 | a shuffle index is above 31 |
/// | 6 | the scalar is of the wrong kind |
/// | 7 | an access runs past the end |
/// | 8, 9, 10, 11 | the finder's: tolerance above 8; frame length outside 64 to 65,536; buffer too long or too short; none |
/// | 12 | two rows differ in length, or a row of halves is odd |
/// | 13, 14, 15 | a recording's: its length; a check; any other rule of the layout |
/// | 16 | an output buffer is shorter than the input |
/// | 17, 19 | a run's limit above 256; its place above the list's number of steps |
/// | 18 | a chain has more than 16 links |
#[derive(Debug, Copy, Clone, PartialEq, Eq)]
pub struct Refusal {
    /// The number, 1 to 19.
    pub number: u8,
    /// With a 7, how far past the end the access runs, at most 2^64 - 1; else 0.
    pub shortfall: u64,
}

impl Refusal {
    /// None for the number 0.
    #[inline]
    pub(crate) fn of(number: u8, shortfall: u64) -> Option<Self> {
        (number != 0).then_some(Self { number, shortfall })
    }

    /// The value where the number is 0.
    #[inline]
    pub(crate) fn or<T>(number: u8, value: T) -> Result<T, Self> {
        Self::of(number, 0).map_or(Ok(value), Err)
    }
}

impl fmt::Display for Refusal {
    fn fmt(&self, to: &mut fmt::Formatter<'_>) -> fmt::Result {
        match self.shortfall {
            0 => write!(to, "refused {}", self.number),
            shortfall => write!(to, "refused {} by {shortfall}", self.number),
        }
    }
}

impl core::error::Error for Refusal {}
