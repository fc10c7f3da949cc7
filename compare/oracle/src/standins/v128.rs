//! STAND-IN, not the original: `wasmi_core::V128`. Sixteen bytes, byte 0 the low one, as the standard has it. simd.rs asks of it that
//! it has the size of sixteen bytes (it transmutes it into arrays of lanes), `as_u128` and `From<u128>`.

/// What a vector is held as: its bytes; or one number, which is what wasmi_core is believed to have. The time of the operations differs (bench/linked), what they give does not.
#[cfg(not(feature = "over-u128"))]
type Held = [u8; 16];
#[cfg(feature = "over-u128")]
type Held = u128;

/// A vector of 128 bits.
#[derive(Debug, Copy, Clone, PartialEq, Eq, Default)]
#[repr(transparent)]
pub struct V128(Held);

#[cfg(not(feature = "over-u128"))]
impl V128 {
    /// The vector as one number, byte 0 the low byte.
    pub fn as_u128(self) -> u128 {
        u128::from_le_bytes(self.0)
    }

    /// The sixteen bytes.
    pub fn bytes(self) -> [u8; 16] {
        self.0
    }
}

#[cfg(feature = "over-u128")]
impl V128 {
    /// The vector as one number, byte 0 the low byte.
    pub fn as_u128(self) -> u128 {
        self.0
    }

    /// The sixteen bytes.
    pub fn bytes(self) -> [u8; 16] {
        self.0.to_le_bytes()
    }
}

#[cfg(not(feature = "over-u128"))]
impl From<u128> for V128 {
    fn from(value: u128) -> Self {
        Self(value.to_le_bytes())
    }
}

#[cfg(feature = "over-u128")]
impl From<u128> for V128 {
    fn from(value: u128) -> Self {
        Self(value)
    }
}

impl From<[u8; 16]> for V128 {
    fn from(bytes: [u8; 16]) -> Self {
        Self::from(u128::from_le_bytes(bytes))
    }
}
