//! STAND-IN, not the original: `wasmi_core::memory`. Loads and stores of little-endian numbers with the bounds of document 01: an access
//! of n bytes is allowed when the exact sum of its address and n is at most the length. What the original does at a bound is not known
//! here, so the comparison of memory functions shows how simd.rs uses such a module, not what the original's bounds are.

use super::trap::TrapCode;

/// A number that is held in memory as its little-endian bytes.
pub trait Bytes: Sized {
    fn read(bytes: &[u8]) -> Self;
    fn write(self, bytes: &mut [u8]);
}

macro_rules! impl_bytes {
    ( $( $ty:ty ),* ) => { $(
        impl Bytes for $ty {
            fn read(bytes: &[u8]) -> Self {
                Self::from_le_bytes(bytes.try_into().expect("a slice of the number's size"))
            }
            fn write(self, bytes: &mut [u8]) {
                bytes.copy_from_slice(&self.to_le_bytes());
            }
        }
    )* };
}
impl_bytes!(u8, u16, u32, u64, u128);

/// The bytes that an access names, by exact sums.
fn range(length: usize, address: u128, bytes: usize) -> Result<std::ops::Range<usize>, TrapCode> {
    match address + bytes as u128 <= length as u128 {
        true => Ok(address as usize..address as usize + bytes),
        false => Err(TrapCode::MemoryOutOfBounds),
    }
}

fn load_exact<T: Bytes>(memory: &[u8], address: u128) -> Result<T, TrapCode> {
    range(memory.len(), address, size_of::<T>()).map(|range| T::read(&memory[range]))
}

fn store_exact<T: Bytes>(memory: &mut [u8], address: u128, value: T) -> Result<(), TrapCode> {
    range(memory.len(), address, size_of::<T>()).map(|range| value.write(&mut memory[range]))
}

/// Reads a number at `ptr + offset`.
pub fn load<T: Bytes>(memory: &[u8], ptr: u64, offset: u64) -> Result<T, TrapCode> {
    load_exact(memory, u128::from(ptr) + u128::from(offset))
}

/// Reads a number at `address`.
pub fn load_at<T: Bytes>(memory: &[u8], address: usize) -> Result<T, TrapCode> {
    load_exact(memory, address as u128)
}

/// Writes a number at `ptr + offset`.
pub fn store<T: Bytes>(memory: &mut [u8], ptr: u64, offset: u64, value: T) -> Result<(), TrapCode> {
    store_exact(memory, u128::from(ptr) + u128::from(offset), value)
}

/// Writes a number at `address`.
pub fn store_at<T: Bytes>(memory: &mut [u8], address: usize, value: T) -> Result<(), TrapCode> {
    store_exact(memory, address as u128, value)
}

/// Widening of a number, by sign or by zeros as its type says.
pub trait ExtendInto<T> {
    fn extend_into(self) -> T;
}

macro_rules! impl_extend_into {
    ( $( $narrow:ty => $wide:ty ),* ) => { $(
        impl ExtendInto<$wide> for $narrow {
            fn extend_into(self) -> $wide {
                <$wide>::from(self)
            }
        }
    )* };
}
impl_extend_into!(i8 => i16, u8 => u16, i16 => i32, u16 => u32, i32 => i64, u32 => u64);
