//! Field recordings (document 02, orders 8 and 10): a list's run recorded, a recording replayed, and a damaged one mended.
//!
//! ```
//! use gatulefo::recording::{Mended, Recorded, Replayed, record, replay, mend};
//!
//! let mut step = [0; 32];
//! step[0] = 12;
//! let mut file = [0; 512];
//! assert_eq!(record(&step, &mut file), Ok(Recorded::Bytes(512)));
//! assert_eq!(record(&step, &mut file[..511]), Ok(Recorded::Short));
//! assert_eq!(replay(&file), Ok(Replayed::Agrees));
//!
//! let mut damaged = file;
//! damaged[100] ^= 1;
//! assert_eq!(replay(&damaged).map_err(|refusal| refusal.number), Err(14));
//! let mut mended = [0; 512];
//! let Mended { written, stopped, bits } = mend(&damaged, &mut mended).unwrap();
//! assert_eq!((written, stopped, bits[0], mended), (1, false, Some(807), file));
//! ```

use crate::Refusal;

/// The bytes that are enough for every recording.
pub const LONGEST: usize = 18944;

/// What recording a list came to.
#[derive(Debug, Copy, Clone, PartialEq, Eq)]
pub enum Recorded {
    /// How many bytes were written.
    Bytes(usize),
    /// The list has no step, so there is nothing to record.
    Empty,
    /// The buffer is shorter than the recording; nothing is written.
    Short,
}

/// What a replay came to.
#[derive(Debug, Copy, Clone, PartialEq, Eq)]
pub enum Replayed {
    /// Every record is what the definition gives.
    Agrees,
    /// The first record that is not, counted from 1.
    Differs(u16),
}

/// What mending came to.
#[derive(Debug, Copy, Clone, PartialEq, Eq)]
pub struct Mended {
    /// How many blocks were written.
    pub written: usize,
    /// Whether the block after them could not be mended.
    pub stopped: bool,
    /// Of each block written the bit that was put back, where one was; bit 0 is the top bit of byte 0.
    pub bits: [Option<u16>; 37],
}

#[repr(C)]
struct RecordAnswer {
    bytes: usize,
    empty: bool,
    overflow: bool,
    refused: u8,
}

#[repr(C)]
struct ReplayAnswer {
    differs: u16,
    refused: u8,
}

#[repr(C)]
struct MendAnswer {
    refused: u8,
    written: usize,
    stopped: bool,
    bits: [u16; 37],
}

/// Runs the list from zero registers and i32 0, and writes its recording to `out`, for which [`LONGEST`] bytes are enough.
///
/// # Errors
///
/// 1 where the list's length is not a multiple of 32 or above 8,192.
pub fn record(list: &[u8], out: &mut [u8]) -> Result<Recorded, Refusal> {
    let answer = call!("gatulefo_" record(list: &[u8], out: &mut [u8]) -> RecordAnswer);
    let recorded = match (answer.empty, answer.overflow) {
        (true, _) => Recorded::Empty,
        (_, true) => Recorded::Short,
        _ => Recorded::Bytes(answer.bytes),
    };
    Refusal::or(answer.refused, recorded)
}

/// Whether every record of a recording is what the calculator's definition gives.
///
/// # Errors
///
/// 13 length zero, no multiple of 512 or above 37 blocks; 14 a check fails; 15 any other rule of the layout; in that order.
pub fn replay(file: &[u8]) -> Result<Replayed, Refusal> {
    let answer = call!("gatulefo_" replay(file: &[u8]) -> ReplayAnswer);
    let replayed = match answer.differs {
        0 => Replayed::Agrees,
        record => Replayed::Differs(record),
    };
    Refusal::or(answer.refused, replayed)
}

/// Puts back a flipped bit of each block of a recording, and writes the blocks to `out`, up to the first that cannot be mended.
///
/// # Errors
///
/// 13 as of [`replay`], then 16 where `out` is shorter than `file`; nothing is written then.
pub fn mend(file: &[u8], out: &mut [u8]) -> Result<Mended, Refusal> {
    let answer = call!("gatulefo_" mend(file: &[u8], out: &mut [u8]) -> MendAnswer);
    let bits = answer.bits.map(|bit| (bit < 4096).then_some(bit));
    Refusal::or(answer.refused, Mended { written: answer.written, stopped: answer.stopped, bits })
}
