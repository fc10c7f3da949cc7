//! WebAssembly's 128-bit vector instructions, proved, and what is built on them: the functions of the archive that `link/archive` makes, safe to call.
//!
//! SPDX-License-Identifier: Apache-2.0. The interface of [`simd`] is that of wasmi_core 2.0.0; the repository's NOTICE says more.
//!
//! | module | what is in it |
//! |---|---|
//! | [`simd`] | the interface of wasmi_core's `simd.rs`, under its names and with its signatures |
//! | [`checked`] | of these the functions that may refuse, for any lane number, index and address: a [`Refusal`] has its number, and of an access how far past the end it runs |
//! | [`packed`] | the packed forms, which give the same answers by another way |
//! | [`rows`], [`half_rows`] | one operation over a whole row of vectors, or of 64-bit halves |
//! | [`chain`] | a chain of shuffles folded into one |
//! | [`calculator`] | steps and lists of steps over sixteen registers |
//! | [`recording`] | runs recorded, replayed and mended |
//! | [`finder`] | the marker finder |
//! | [`scan`] | every position at which a marker stands, of a capture of any length that comes in pieces |
//!
//! Where a whole interpreter is to run on it, the repository's `link/mount` puts a module over this crate in the place of wasmi_core's own file.
//!
//! ```
//! use gatulefo::simd;
//!
//! let a = simd::i8x16_splat(100);
//! assert_eq!(simd::i8x16_add_sat_s(a, a), simd::i8x16_splat(127));
//! ```

#![no_std]
#![warn(missing_docs)]

#[macro_use]
mod linked;
pub mod calculator;
pub mod chain;
pub mod checked;
pub mod finder;
pub mod half_rows;
pub mod packed;
pub mod recording;
mod refusal;
pub mod rows;
mod scalar;
pub mod scan;
pub mod simd;
mod v128;

pub use refusal::Refusal;
pub use v128::V128;

/// Why a memory access was refused; of wasmi_core's cases the one that an access can give.
#[derive(Debug, Copy, Clone, PartialEq, Eq)]
pub enum TrapCode {
    /// The access runs past the end of the memory, or its address past the largest number.
    MemoryOutOfBounds,
}

/// How far past the end of `memory` an access of `bytes` bytes at `ptr + offset` runs: the exact end minus the length, at most 2^64 - 1. It is 0 for an
/// access that is allowed. The address of an `_at` function is `ptr`, with the offset 0.
///
/// ```
/// assert_eq!(gatulefo::shortfall(&[0; 16], 1, 0, 16), 1);
/// assert_eq!(gatulefo::shortfall(&[0; 16], u64::MAX, 1, 16), u64::MAX);
/// ```
#[inline]
pub fn shortfall(memory: &[u8], ptr: u64, offset: u64, bytes: usize) -> u64 {
    call!("gatulefo_" shortfall(memory: &[u8], ptr: u64, offset: u64, bytes: usize) -> u64)
}

/// The version of the archive that is linked: major times 1,000,000, minor times 1,000, patch. It is the version of this crate.
///
/// ```
/// let (major, minor, patch) = (gatulefo::version() / 1_000_000, gatulefo::version() / 1_000 % 1_000, gatulefo::version() % 1_000);
/// assert_eq!(format!("{major}.{minor}.{patch}"), env!("CARGO_PKG_VERSION"));
/// ```
pub fn version() -> u32 {
    call!("gatulefo_" version() -> u32)
}
