//! Requests of 128 bytes and answers of 80, as the program `direct` reads and writes them. Numbers are little-endian.

use crate::V128;

pub const REQUEST: usize = 128;
pub const ANSWER: usize = 80;
/// The largest memory that a request carries.
pub const MEMORY: usize = 48;
/// Added to a function's number: its packed form.
pub const PACKED: u16 = 512;

pub const LANE_REFUSED: u8 = 4;
pub const INDEX_REFUSED: u8 = 5;
pub const ACCESS_REFUSED: u8 = 7;
pub const NO_FUNCTION: u8 = 255;

/// What the result of an answer is.
const NOTHING: u8 = 0;
pub const VECTOR: u8 = 1;
pub const SCALAR: u8 = 2;
pub const BOOLEAN: u8 = 3;

pub type Answer = [u8; ANSWER];

/// A request, its fields apart.
#[derive(Clone, Copy)]
pub struct Request {
    pub function: u16,
    pub lane: u8,
    pub length: u8,
    pub count: u32,
    pub pointer: u64,
    pub offset: u64,
    pub scalar: u64,
    pub a: [u8; 16],
    pub b: [u8; 16],
    pub c: [u8; 16],
    pub memory: [u8; MEMORY],
}

fn part<const N: usize>(bytes: &[u8], at: usize) -> [u8; N] {
    bytes[at..at + N].try_into().expect("a part of the request")
}

impl Request {
    /// A request whose fields are all zero.
    pub fn zero(function: u16) -> Self {
        let mut request = Self::from_bytes(&[0; REQUEST]);
        request.function = function;
        request
    }

    pub fn from_bytes(bytes: &[u8; REQUEST]) -> Self {
        Self {
            function: u16::from_le_bytes(part(bytes, 0)),
            lane: bytes[2],
            length: bytes[3],
            count: u32::from_le_bytes(part(bytes, 4)),
            pointer: u64::from_le_bytes(part(bytes, 8)),
            offset: u64::from_le_bytes(part(bytes, 16)),
            scalar: u64::from_le_bytes(part(bytes, 24)),
            a: part(bytes, 32),
            b: part(bytes, 48),
            c: part(bytes, 64),
            memory: part(bytes, 80),
        }
    }

    pub fn to_bytes(&self) -> [u8; REQUEST] {
        let mut bytes = [0; REQUEST];
        bytes[0..2].copy_from_slice(&self.function.to_le_bytes());
        bytes[2] = self.lane;
        bytes[3] = self.length;
        bytes[4..8].copy_from_slice(&self.count.to_le_bytes());
        bytes[8..16].copy_from_slice(&self.pointer.to_le_bytes());
        bytes[16..24].copy_from_slice(&self.offset.to_le_bytes());
        bytes[24..32].copy_from_slice(&self.scalar.to_le_bytes());
        bytes[32..48].copy_from_slice(&self.a);
        bytes[48..64].copy_from_slice(&self.b);
        bytes[64..80].copy_from_slice(&self.c);
        bytes[80..128].copy_from_slice(&self.memory);
        bytes
    }
}

/// What an operation gave.
#[derive(Clone, Copy)]
pub enum Outcome {
    Nothing,
    Vector(V128),
    I32(u32),
    I64(u64),
    F32(u32),
    F64(u64),
    Bool(bool),
}

macro_rules! impl_outcome {
    ( $( $ty:ty: $value:ident => $outcome:expr; )* ) => { $(
        impl From<$ty> for Outcome {
            fn from($value: $ty) -> Self {
                $outcome
            }
        }
    )* };
}
impl_outcome! {
    (): _value => Self::Nothing;
    V128: value => Self::Vector(value);
    i32: value => Self::I32(value as u32);
    u32: value => Self::I32(value);
    i64: value => Self::I64(value as u64);
    f32: value => Self::F32(value.to_bits());
    f64: value => Self::F64(value.to_bits());
    bool: value => Self::Bool(value);
}

impl Outcome {
    /// What it is, the kind of a scalar, and the bits of a scalar or a boolean.
    fn parts(self) -> (u8, u8, u64) {
        match self {
            Self::Nothing => (NOTHING, 0, 0),
            Self::Vector(_) => (VECTOR, 0, 0),
            Self::I32(bits) => (SCALAR, 0, bits.into()),
            Self::I64(bits) => (SCALAR, 1, bits),
            Self::F32(bits) => (SCALAR, 2, bits.into()),
            Self::F64(bits) => (SCALAR, 3, bits),
            Self::Bool(value) => (BOOLEAN, 0, value.into()),
        }
    }
}

/// The answer's bytes; `memory` is the lent memory afterwards, empty for the operations that lend none.
pub fn answer_bytes(result: Result<Outcome, u8>, memory: &[u8]) -> Answer {
    let mut bytes = [0; ANSWER];
    match result {
        Err(refusal) => bytes[0] = refusal,
        Ok(outcome) => {
            let (result, kind, bits) = outcome.parts();
            bytes[1] = result;
            bytes[2] = kind;
            bytes[8..16].copy_from_slice(&bits.to_le_bytes());
            if let Outcome::Vector(vector) = outcome {
                bytes[16..32].copy_from_slice(&vector.bytes());
            }
        }
    }
    bytes[32..32 + memory.len()].copy_from_slice(memory);
    bytes
}

/// Sets the shortfall that goes with refusal 7.
pub fn set_shortfall(answer: &mut Answer, shortfall: u64) {
    answer[8..16].copy_from_slice(&shortfall.to_le_bytes());
}
