//! Every function that is carried over under its number, with what it reads, and the call.

use crate::wire::{ACCESS_REFUSED, Answer, MEMORY, NO_FUNCTION, Outcome, PACKED, Request, answer_bytes, set_shortfall};
use crate::{FUNCTIONS, families};
use std::sync::OnceLock;

/// The lanes that an operation reads.
#[derive(Clone, Copy, Debug, PartialEq, Eq)]
pub enum Lane {
    I8,
    I16,
    I32,
    I64,
    F32,
    F64,
}

impl Lane {
    pub fn width(self) -> u32 {
        match self {
            Lane::I8 => 8,
            Lane::I16 => 16,
            Lane::I32 | Lane::F32 => 32,
            Lane::I64 | Lane::F64 => 64,
        }
    }

    /// The positive quiet NaN, and the infinity, above which every pattern but for the sign is a NaN's; none for whole numbers.
    pub fn nan_and_infinity(self) -> Option<(u64, u64)> {
        match self {
            Lane::F32 => Some((0x7fc0_0000, 0x7f80_0000)),
            Lane::F64 => Some((0x7ff8_0000_0000_0000, 0x7ff0_0000_0000_0000)),
            _ => None,
        }
    }

    /// How many lanes a vector has.
    pub fn count(self) -> usize {
        128 / self.width() as usize
    }
}

/// A load or store: its size in bytes, whether it has one address instead of pointer and offset, the lane count of a lane access or 0.
#[derive(Clone, Copy, Debug)]
pub struct Access {
    pub bytes: u64,
    pub at: bool,
    pub lanes: u8,
}

impl Access {
    /// How far past the end the access of a request runs: the exact end minus the length, at most 2^64 - 1. The Rust has no such number.
    fn shortfall(self, request: &Request) -> u64 {
        let offset = if self.at { 0 } else { request.offset };
        let end = u128::from(request.pointer) + u128::from(offset) + u128::from(self.bytes);
        u64::try_from(end - u128::from(request.length)).unwrap_or(u64::MAX)
    }
}

/// What an operation reads; the generator goes by it.
#[derive(Clone, Copy, Debug)]
pub enum Shape {
    Splat(Lane),
    Extract(Lane),
    Replace(Lane),
    Shuffle,
    Swizzle,
    Unary(Lane),
    Binary(Lane),
    /// Two vectors of float lanes, with a rounded result.
    Arithmetic(Lane),
    /// Lanes of one kind, from which lanes of another or rounded ones are made.
    Converted {
        reads: Lane,
        gives: Lane,
    },
    Select,
    /// Two vectors of byte lanes, multiplied and added in pairs, and lanes of 32 bits that may be added.
    Dot,
    Shift(Lane),
    Reduce(Lane),
    Bits,
    Memory(Access),
}

impl Shape {
    /// The lanes of a result in which the standard leaves the bits of a NaN open.
    fn open_nans(self) -> Option<Lane> {
        match self {
            Shape::Arithmetic(lane) | Shape::Converted { gives: lane, .. } => Some(lane),
            _ => None,
        }
    }
}

/// One function of simd.rs.
#[derive(Clone, Copy)]
pub struct Entry {
    pub name: &'static str,
    pub shape: Shape,
    pub call: fn(&Request, &mut [u8]) -> Result<Outcome, u8>,
}

/// What the list of functions says of those that are carried over: when they arrive.
const CARRIED: [&str; 4] = ["base", "order 4", "order 11", "order 14"];

/// A line of the list of functions.
pub struct Listed {
    pub name: &'static str,
    pub carried: bool,
    pub opcode: Option<u32>,
}

/// The list of functions; the place in it is the function's number.
pub fn listed() -> Vec<Listed> {
    let line = |line: &'static str| {
        let columns: Vec<_> = line.split('\t').collect();
        Listed { name: columns[0], carried: CARRIED.contains(&columns[1]), opcode: columns[3].parse().ok() }
    };
    FUNCTIONS.lines().skip(1).map(line).collect()
}

fn build() -> Vec<Option<Entry>> {
    let entries: Vec<Entry> = families::all();
    let find = |listed: &Listed| entries.iter().find(|entry| entry.name == listed.name).copied();
    let table: Vec<_> = listed().iter().map(|listed| listed.carried.then(|| find(listed).expect(listed.name))).collect();
    assert_eq!(table.iter().flatten().count(), entries.len(), "an entry that the list does not have");
    table
}

fn table() -> &'static [Option<Entry>] {
    static TABLE: OnceLock<Vec<Option<Entry>>> = OnceLock::new();
    TABLE.get_or_init(build)
}

/// The operations that have a packed form.
fn has_packed(name: &str) -> bool {
    let families = ["add", "sub", "neg", "eq", "shl", "shr_u", "all_true", "bitmask"];
    let widths = ["i8x16_", "i16x8_", "i32x4_", "i64x2_"];
    let family = widths.iter().find_map(|width| name.strip_prefix(width));
    family.is_some_and(|family| families.contains(&family))
        || ["i8x16_avgr_u", "i16x8_avgr_u", "i8x16_popcnt", "v128_any_true"].contains(&name)
}

/// The function of a number; a packed form is answered by the function itself.
pub fn entry(number: u16) -> Option<&'static Entry> {
    match number < PACKED {
        true => table().get(usize::from(number))?.as_ref(),
        false => table().get(usize::from(number - PACKED))?.as_ref().filter(|entry| has_packed(entry.name)),
    }
}

/// All numbers that have a function, packed forms last.
pub fn numbers() -> Vec<u16> {
    (0..2 * PACKED).filter(|number| entry(*number).is_some()).collect()
}

/// The name of a number, for printing.
pub fn name(number: u16) -> String {
    match entry(number) {
        Some(entry) if number < PACKED => entry.name.to_string(),
        Some(entry) => format!("{} (packed)", entry.name),
        None => format!("number {number}"),
    }
}

/// A result whose NaN lanes are the positive quiet one (document 02, order 4). The Rust's NaN has any bits, so a comparison with this is equal where both
/// are NaN and ours has the one pattern.
pub fn with_one_nan(outcome: Outcome, shape: Shape) -> Outcome {
    let (Outcome::Vector(vector), Some(lane)) = (outcome, shape.open_nans()) else {
        return outcome;
    };
    let Some((nan, infinity)) = lane.nan_and_infinity() else {
        return outcome;
    };
    let mut bytes = vector.bytes();
    for part in bytes.chunks_exact_mut(lane.width() as usize / 8) {
        let size = part.len();
        let mut bits = [0; 8];
        bits[..size].copy_from_slice(part);
        if u64::from_le_bytes(bits) & ((1 << (lane.width() - 1)) - 1) > infinity {
            part.copy_from_slice(&nan.to_le_bytes()[..size]);
        }
    }
    Outcome::Vector(bytes.into())
}

/// The Rust's answer, and the shortfall of an access that it refuses.
pub fn answer(request: &Request) -> Answer {
    let length = usize::from(request.length);
    let Some(entry) = entry(request.function).filter(|_| length <= MEMORY) else {
        return answer_bytes(Err(NO_FUNCTION), &[]);
    };
    let mut memory = request.memory;
    let lent = &mut memory[..length];
    let result = (entry.call)(request, lent).map(|outcome| with_one_nan(outcome, entry.shape));
    let Shape::Memory(access) = entry.shape else {
        return answer_bytes(result, &[]);
    };
    let mut answer = answer_bytes(result, lent);
    if let Err(ACCESS_REFUSED) = result {
        set_shortfall(&mut answer, access.shortfall(request));
    }
    answer
}
