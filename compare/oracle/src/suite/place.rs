//! The suite's memory of 65,536 bytes on the request's memory of 48.
//!
//! An access within the first 48 bytes keeps pointer and offset, and the request's memory stands for those first 48 bytes. Every other
//! access of the suite lies in the last 48 bytes or runs past the end: there the request's memory stands for the last 48 bytes, and
//! 65,488 is taken off the pointer, or off the offset as far as the pointer is too small. The exact sum of pointer, offset and size
//! then exceeds 48 if and only if the suite's exceeds 65,536, and by as much.

use crate::wire::MEMORY;

/// The length of the suite's memory throughout.
const LENGTH: u64 = 65_536;
const TAKEN_OFF: u64 = LENGTH - MEMORY as u64;

/// Pointer and offset of the request, or none for an access in the middle (the suite has none).
pub fn place(pointer: u64, offset: u64, bytes: u64) -> Option<(u64, u64)> {
    if pointer + offset + bytes <= MEMORY as u64 {
        return Some((pointer, offset));
    }
    let off_pointer = pointer.min(TAKEN_OFF);
    Some((pointer - off_pointer, offset.checked_sub(TAKEN_OFF - off_pointer)?))
}

/// What the memory holds where the suite does not say.
pub fn filled() -> [u8; MEMORY] {
    std::array::from_fn(|place| (place * 37 + 11) as u8)
}
