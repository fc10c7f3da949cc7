//! The inputs of a function, several lanes to a vector. Lanes that a function does not read carry noise.

use crate::Function;

/// Random patterns of 64 bits for each function.
const RANDOM: u64 = 10_000_000;

/// How far around a boundary patterns are taken, on each side: with the boundary itself 4,097.
const AROUND: u64 = 2048;

/// The digits of an f64's fraction.
const DIGITS: u32 = 52;

fn mixed(number: u64) -> u64 {
    let mixed = (number ^ (number >> 30)).wrapping_mul(0xbf58_476d_1ce4_e5b9);
    let mixed = (mixed ^ (mixed >> 27)).wrapping_mul(0x94d0_49bb_1331_11eb);
    mixed ^ (mixed >> 31)
}

/// Hands every vector of a share on.
pub fn vectors(function: Function, share: usize, shares: usize, mut give: impl FnMut(u128)) {
    match function.width {
        32 => every(function.lanes as u64, share as u64, shares as u64, &mut give),
        _ => {
            around_boundaries(share as u64, shares as u64, &mut give);
            random(share as u64, shares as u64, &mut give);
        }
    }
}

/// Every pattern of 32 bits, in lanes whose neighbours are far from it.
fn every(lanes: u64, share: u64, shares: u64, give: &mut impl FnMut(u128)) {
    let each = (1 << 32) / lanes;
    for first in (share..each).step_by(shares as usize) {
        let noise = u128::from(mixed(first)) << 64;
        let read = (0..lanes).fold(0, |vector, place| vector | u128::from(first + place * each) << (32 * place));
        give(if lanes == 2 { noise | read } else { read });
    }
}

/// For each sign and each exponent: the patterns around fractions that end in zeros from a digit on, where the digit is one at which a whole number, a
/// half, an f32 or the middle between two of them ends. Above the digit stand zeros, ones, or anything.
fn around_boundaries(share: u64, shares: u64, give: &mut impl FnMut(u128)) {
    for head in (share..4096).step_by(shares as usize) {
        for digit in ends(head % 2048) {
            for (kind, above) in [0, u64::MAX, mixed(head), mixed(!head)].into_iter().enumerate() {
                let fraction = (above & ((1 << DIGITS) - 1)) >> digit << digit;
                let boundary = (head << DIGITS) | fraction;
                for off in 0..=AROUND {
                    let other = if kind % 2 == 0 { mixed(boundary ^ off) } else { boundary.wrapping_add(off * 3) };
                    give(u128::from(boundary.wrapping_add(off)) | u128::from(boundary.wrapping_sub(off)) << 64);
                    give(u128::from(boundary.wrapping_sub(off)) | u128::from(other) << 64);
                }
            }
        }
    }
}

/// The digits, counted from the low end, at which a number of this exponent ends if it is a whole number or a half, and if it is an f32, subnormal ones
/// too, or the middle between two.
fn ends(field: u64) -> Vec<u32> {
    let mut digits = vec![0, DIGITS];
    if (1022..1075).contains(&field) {
        let unit = (1075 - field) as u32;
        digits.extend([unit.min(DIGITS), unit - 1]);
    }
    let short = 29 + 897_u64.saturating_sub(field.max(1)) as u32;
    if field >= 872 {
        digits.extend([short.min(DIGITS), (short - 1).min(DIGITS)]);
    }
    digits.sort_unstable();
    digits.dedup();
    digits
}

fn random(share: u64, shares: u64, give: &mut impl FnMut(u128)) {
    for number in (share..RANDOM / 2).step_by(shares as usize) {
        give(u128::from(mixed(2 * number + 1)) | u128::from(mixed(!number)) << 64);
    }
}
