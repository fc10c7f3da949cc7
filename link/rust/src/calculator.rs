//! The calculator (document 01; document 02, orders 1, 2 and 12): sixteen registers, one scalar, and lists of steps of 32 bytes each.
//!
//! ```
//! use gatulefo::calculator::{End, State};
//! use gatulefo::V128;
//!
//! // v128.const (number 12) of the bytes 0 to 15 into register 1, then i8x16.popcnt (98) from 1 into 2.
//! let mut list = [0; 64];
//! (list[0], list[2]) = (12, 1);
//! for i in 0..16 {
//!     list[16 + i] = i as u8;
//! }
//! (list[32], list[34], list[35]) = (98, 2, 1);
//!
//! let mut state = State::default();
//! let run = state.run(&list, 0, 1);
//! assert_eq!((run.done, run.end), (1, End::Paused(1)));
//! let run = state.run(&list, 1, 256);
//! assert_eq!((run.done, run.end), (1, End::Ended));
//! assert_eq!(state.registers[2], V128::from([0, 1, 1, 2, 1, 2, 2, 3, 1, 2, 2, 3, 2, 3, 3, 4]));
//! assert_eq!((state.writers[1], state.writers[2]), (1, 2));
//!
//! list[34] = 16;
//! assert_eq!(state.step(1, &list[32..]).map_err(|refusal| refusal.number), Err(3));
//! ```

use crate::{Refusal, V128};

/// The kind of the scalar, as a recording numbers it.
#[derive(Debug, Copy, Clone, PartialEq, Eq, Default)]
#[allow(missing_docs)]
pub enum Kind {
    #[default]
    I32,
    I64,
    F32,
    F64,
}

/// The scalar by its kind and bits; of a kind of 32 bits the low bits count.
#[derive(Debug, Copy, Clone, PartialEq, Eq, Default)]
#[allow(missing_docs)]
pub struct Scalar {
    pub kind: Kind,
    pub bits: u64,
}

/// The state: the registers, beside each the number of the step that last wrote it in this run or 0, and the scalar. The default is all zeros and i32 0, from
/// which the program `lanes` starts.
#[derive(Debug, Copy, Clone, PartialEq, Eq, Default)]
#[allow(missing_docs)]
pub struct State {
    pub registers: [V128; 16],
    pub writers: [u16; 16],
    pub scalar: Scalar,
}

/// How a run stopped.
#[derive(Debug, Copy, Clone, PartialEq, Eq)]
pub enum End {
    /// No step is left.
    Ended,
    /// At the limit, with steps left: the place to take up from, counted from the list's start.
    Paused(usize),
    /// The number: 17 limit above 256, 1 the list's length, 19 the place; or 2 to 6 of the step that comes next.
    Refused(Refusal),
}

/// What a run reports.
#[derive(Debug, Copy, Clone, PartialEq, Eq)]
pub struct Run {
    /// The steps done.
    pub done: usize,
    /// How it stopped.
    pub end: End,
}

#[repr(C)]
struct KindAndBits {
    kind: u8,
    bits: u64,
}

#[repr(C)]
struct StepAnswer {
    scalar: KindAndBits,
    refused: u8,
}

#[repr(C)]
struct RunAnswer {
    scalar: KindAndBits,
    done: usize,
    place: usize,
    paused: bool,
    refused: u8,
}

impl From<Scalar> for KindAndBits {
    fn from(scalar: Scalar) -> Self {
        Self { kind: scalar.kind as u8, bits: scalar.bits }
    }
}

impl From<KindAndBits> for Scalar {
    fn from(given: KindAndBits) -> Self {
        let kind = match given.kind {
            1 => Kind::I64,
            2 => Kind::F32,
            3 => Kind::F64,
            _ => Kind::I32,
        };
        Self { kind, bits: given.bits }
    }
}

impl State {
    /// Performs one step of 32 bytes, as the one at a place of a list, counted from 0.
    ///
    /// # Errors
    ///
    /// 2 to 6, and nothing is changed.
    pub fn step(&mut self, place: u8, step: &[u8]) -> Result<(), Refusal> {
        unsafe extern "C" {
            fn gatulefo_step(
                registers: *mut V128,
                writers: *mut u16,
                scalar: KindAndBits,
                place: u8,
                step: *const u8,
                length: usize,
            ) -> StepAnswer;
        }
        // SAFETY: sixteen vectors are the 32 words that the function takes, low half first; the state is lent to the call alone, and the slice until it
        // returns.
        let answer = unsafe {
            gatulefo_step(self.registers.as_mut_ptr(), self.writers.as_mut_ptr(), self.scalar.into(), place, step.as_ptr(), step.len())
        };
        self.scalar = answer.scalar.into();
        Refusal::or(answer.refused, ())
    }

    /// Runs a list from a place, at most `limit` steps of it. Steps done before a refused one stay done.
    pub fn run(&mut self, list: &[u8], place: usize, limit: usize) -> Run {
        unsafe extern "C" {
            fn gatulefo_run(
                registers: *mut V128,
                writers: *mut u16,
                scalar: KindAndBits,
                list: *const u8,
                length: usize,
                place: usize,
                limit: usize,
            ) -> RunAnswer;
        }
        // SAFETY: as in `step`.
        let answer = unsafe {
            let (registers, writers) = (self.registers.as_mut_ptr(), self.writers.as_mut_ptr());
            gatulefo_run(registers, writers, self.scalar.into(), list.as_ptr(), list.len(), place, limit)
        };
        self.scalar = answer.scalar.into();
        let end = match Refusal::of(answer.refused, 0) {
            Some(refusal) => End::Refused(refusal),
            None if answer.paused => End::Paused(answer.place),
            None => End::Ended,
        };
        Run { done: answer.done, end }
    }
}
