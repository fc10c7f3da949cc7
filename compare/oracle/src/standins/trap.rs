//! STAND-IN, not the original: of `wasmi_core::TrapCode` the one case that simd.rs can hand back.

/// Why a memory access was refused.
#[derive(Debug, Copy, Clone, PartialEq, Eq)]
pub enum TrapCode {
    /// The access runs past the end of the memory, or its address past the largest number.
    MemoryOutOfBounds,
}
