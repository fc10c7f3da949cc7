//! A result of the suite as an expected answer and a mask.

use super::{bits, vector};
use crate::wire::{ACCESS_REFUSED, ANSWER, Answer, BOOLEAN, SCALAR, VECTOR};

/// The expected answer but for its memory, and the bits of it that count.
pub fn expected(column: &str, boolean: bool) -> (Answer, Answer) {
    let (mut answer, mut mask) = ([0; ANSWER], [255; ANSWER]);
    match column.split_once(':') {
        None if column == "trap" => answer[0] = ACCESS_REFUSED,
        None if column == "-" => (),
        None => {
            answer[1] = VECTOR;
            answer[16..32].copy_from_slice(&vector(column));
        }
        Some((shape @ ("f32x4" | "f64x2"), lanes)) => {
            answer[1] = VECTOR;
            patterns(shape, lanes, &mut answer[16..32], &mut mask[16..32]);
        }
        Some((kind, hex)) => {
            (answer[1], answer[2]) = if boolean { (BOOLEAN, 0) } else { (SCALAR, kind_number(kind)) };
            answer[8..16].copy_from_slice(&bits(hex).to_le_bytes());
        }
    }
    (answer, mask)
}

fn kind_number(kind: &str) -> u8 {
    match kind {
        "i32" => 0,
        "i64" => 1,
        "f32" => 2,
        "f64" => 3,
        _ => panic!("no kind {kind}"),
    }
}

/// Lanes of which some are NaN patterns: canonical has all exponent bits and of the fraction only the top bit, the sign free;
/// arithmetic has all exponent bits and the top bit, the rest free.
fn patterns(shape: &str, lanes: &str, answer: &mut [u8], mask: &mut [u8]) {
    let (size, nan) = match shape {
        "f32x4" => (4, 0x7fc0_0000),
        _ => (8, 0x7ff8_0000_0000_0000_u64),
    };
    let sign = 1_u64 << (8 * size - 1);
    for (place, lane) in lanes.split(',').enumerate() {
        let (value, counts) = match lane {
            "nan:canonical" => (nan, !sign),
            "nan:arithmetic" => (nan, nan),
            hex => (bits(hex), u64::MAX),
        };
        answer[place * size..(place + 1) * size].copy_from_slice(&value.to_le_bytes()[..size]);
        mask[place * size..(place + 1) * size].copy_from_slice(&counts.to_le_bytes()[..size]);
    }
}
