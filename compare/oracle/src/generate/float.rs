//! Requests for float arithmetic, and for floats and integers that are converted or rounded.

use super::corners::{self, Lanes};
use super::random::Random;
use super::vectors::{corner_pairs, corner_places};
use super::Generator;
use crate::table::Lane;

/// Random pairs of lanes for each function of float arithmetic, or more where as many vectors are asked for.
const PAIRS: usize = 1_000_000;

/// A float format: its width and the bits of its fraction.
fn format(lane: Lane) -> (u32, u32) {
    match lane {
        Lane::F32 => (32, 23),
        _ => (64, 52),
    }
}

/// The corners of comparisons, and besides them, of both signs: what lies around a rounding tie beside 1 and beside the largest number, and around the
/// halves of the smallest ones.
fn rounding_corners(lane: Lane) -> Vec<u64> {
    let (width, fraction) = format(lane);
    let digits = u64::from(fraction);
    let unit = 1_u64 << fraction;
    let bias = (1_u64 << (width - fraction - 2)) - 1;
    let power = |exponent: i64| ((bias as i64 + exponent) as u64) * unit;
    let ties = [-(digits as i64) - 2, -(digits as i64) - 1, -(digits as i64), digits as i64, digits as i64 + 1];
    let mut patterns: Vec<u64> =
        ties.into_iter().flat_map(|exponent| [power(exponent), power(exponent) + 1, power(exponent) + unit / 2]).collect();
    patterns.extend([
        2,
        3,
        unit / 2,
        unit + 1,
        2 * unit - 1,
        2 * unit,
        power(-1),
        power(0) - 1,
        power(0) + 2,
        power(0) + 3,
        power(1) - 1,
        power(1) + unit / 2,
    ]);
    patterns.extend([
        power(bias as i64 - digits as i64 - 1),
        power(bias as i64 - digits as i64),
        power(bias as i64) - 1,
        power(bias as i64),
    ]);
    let negative = patterns.iter().map(|bits| bits | (1 << (width - 1)));
    let mut all: Vec<u64> = corners::corners(lane).into_iter().chain(patterns.iter().copied()).chain(negative).collect();
    all.sort_unstable();
    all.dedup();
    all
}

/// A finite number near another in its exponent, so that a sum has digits of both.
fn close(lane: Lane, a: u64, random: &mut Random) -> u64 {
    let (width, fraction) = format(lane);
    let top = (1_i64 << (width - fraction - 1)) - 2;
    let exponent = (a >> fraction) as i64 & (top + 1);
    let apart = random.below(2 * u64::from(fraction) + 7) as i64 - i64::from(fraction) - 3;
    let near = (exponent + apart).clamp(0, top) as u64;
    let bits = random.next();
    (bits & (1 << (width - 1))) | (near << fraction) | ((bits >> 1) & ((1 << fraction) - 1))
}

pub fn arithmetic(generator: &mut Generator, lane: Lane) {
    let lanes = Lanes { lane, corners: rounding_corners(lane) };
    let half = (PAIRS / lane.count()).max(generator.many) / 2;
    corner_pairs(generator, &lanes);
    generator.section("close exponents");
    for _ in 0..half {
        generator.add(|request, random| {
            for place in 0..lane.count() {
                let a = lanes.get(&request.a, place);
                lanes.put(&mut request.b, place, close(lane, a, random));
            }
        });
    }
    generator.section("random");
    for _ in 0..half {
        generator.add(|request, random| (request.a, request.b) = (lanes.vector(random), lanes.vector(random)));
    }
}

/// A float whose whole part and fraction both have digits, or which is just above or below what an integer of 32 bits holds.
fn middling(lane: Lane, random: &mut Random) -> u64 {
    let (width, fraction) = format(lane);
    let bias = (1_u64 << (width - fraction - 2)) - 1;
    let bits = random.next();
    let low = bits & ((1 << fraction) - 1);
    let digits = match random.below(3) {
        0 => low,
        1 => low >> random.below(u64::from(fraction)) << random.below(u64::from(fraction)),
        _ => (low >> random.below(u64::from(fraction))).wrapping_neg(),
    };
    (bits & (1 << (width - 1))) | ((bias - 3 + random.below(u64::from(fraction) + 8)) << fraction) | (digits & ((1 << fraction) - 1))
}

pub fn converted(generator: &mut Generator, lane: Lane) {
    let float = lane.nan_and_infinity().is_some();
    let lanes = if float { Lanes { lane, corners: rounding_corners(lane) } } else { Lanes::new(lane) };
    corner_places(generator, &lanes);
    if float {
        generator.section("middling");
        for _ in 0..generator.many {
            generator.add(|request, random| (0..lane.count()).for_each(|place| lanes.put(&mut request.a, place, middling(lane, random))));
        }
    }
    generator.section("random");
    for _ in 0..generator.many {
        generator.add(|request, random| request.a = lanes.vector(random));
    }
}
