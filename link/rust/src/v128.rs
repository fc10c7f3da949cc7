//! The vector.

/// A vector of 128 bits, as C has it: the low half, then the high half.
///
/// ```
/// let v = gatulefo::V128::from(0x0102);
/// assert_eq!((v.as_u128(), v.bytes()[0]), (0x0102, 2));
/// ```
#[derive(Debug, Copy, Clone, PartialEq, Eq, Default, Hash)]
#[repr(C)]
pub struct V128 {
    pub(crate) lo: u64,
    pub(crate) hi: u64,
}

impl V128 {
    /// The vector as one number, byte 0 the low byte.
    #[inline]
    pub fn as_u128(self) -> u128 {
        u128::from(self.lo) | u128::from(self.hi) << 64
    }

    /// The sixteen bytes, byte 0 first.
    #[inline]
    pub fn bytes(self) -> [u8; 16] {
        self.as_u128().to_le_bytes()
    }
}

impl From<u128> for V128 {
    #[inline]
    fn from(value: u128) -> Self {
        Self { lo: value as u64, hi: (value >> 64) as u64 }
    }
}

impl From<[u8; 16]> for V128 {
    #[inline]
    fn from(bytes: [u8; 16]) -> Self {
        Self::from(u128::from_le_bytes(bytes))
    }
}
