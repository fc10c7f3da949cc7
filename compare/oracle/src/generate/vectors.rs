//! Requests for operations of whole vectors: one operand, two, three, shifts, reductions.

use super::Generator;
use super::corners::Lanes;
use crate::table::Lane;

/// Every pair of corner values, in every place of the two vectors.
pub fn corner_pairs(generator: &mut Generator, lanes: &Lanes) {
    generator.section("corner pairs");
    let count = lanes.corners.len();
    for first in 0..count * count {
        generator.add(|request, _| {
            for place in 0..lanes.lane.count() {
                let pair = (first + place) % (count * count);
                lanes.put(&mut request.a, place, lanes.corners[pair / count]);
                lanes.put(&mut request.b, place, lanes.corners[pair % count]);
            }
        });
    }
}

/// Every corner value in every place, the other lanes random.
pub fn corner_places(generator: &mut Generator, lanes: &Lanes) {
    generator.section("corners");
    for corner in &lanes.corners {
        for place in 0..lanes.lane.count() {
            generator.add(|request, _| lanes.put(&mut request.a, place, *corner));
        }
    }
}

/// Every pair of 8-bit lanes, sixteen to a vector, in every place.
fn byte_pairs(generator: &mut Generator) {
    generator.section("byte pairs");
    for first in 0..=u16::MAX {
        generator.add(|request, _| {
            for place in 0..16 {
                let pair = first.wrapping_add(place as u16 * 0x0f1f).to_le_bytes();
                request.a[place] = pair[0];
                request.b[place] = pair[1];
            }
        });
    }
}

/// Every 16-bit lane (every pair of adjacent bytes), eight to a vector, in every place of a; b holds each as well, in another order.
fn sixteens(generator: &mut Generator) {
    generator.section("16-bit lanes");
    let lanes = Lanes::new(Lane::I16);
    for first in 0..=u16::MAX {
        generator.add(|request, _| {
            for place in 0..8 {
                let value = first.wrapping_add(place as u16 * 0x1f2f);
                lanes.put(&mut request.a, place, value.into());
                lanes.put(&mut request.b, place, value.wrapping_mul(0x6487).rotate_left(3).into());
            }
        });
    }
}

pub fn unary(generator: &mut Generator, lane: Lane) {
    let lanes = Lanes::new(lane);
    corner_places(generator, &lanes);
    if lane.width() <= 16 {
        sixteens(generator);
    }
    generator.section("random");
    for _ in 0..generator.many {
        generator.add(|request, random| request.a = lanes.vector(random));
    }
}

pub fn binary(generator: &mut Generator, lane: Lane) {
    let lanes = Lanes::new(lane);
    corner_pairs(generator, &lanes);
    match lane {
        Lane::I8 => byte_pairs(generator),
        Lane::I16 => sixteens(generator),
        _ => (),
    }
    generator.section("random");
    for _ in 0..generator.many {
        generator.add(|request, random| {
            request.a = lanes.vector(random);
            request.b = lanes.near_vector(&request.a, random);
        });
    }
}

/// Bytes at the ends of their ranges, read as signed, as unsigned and as 7 bits.
const ENDS: [u8; 6] = [0, 1, 127, 128, 129, 255];

/// The two bytes of a 16-bit lane and the two that they are multiplied with: every choice of ends, in every place.
fn every_four(generator: &mut Generator) {
    generator.section("fours");
    let lanes = Lanes::new(Lane::I32);
    let choices = ENDS.len().pow(4);
    for first in 0..choices {
        generator.add(|request, random| {
            for place in 0..8 {
                let four = [1, 6, 36, 216].map(|part| ENDS[(first + place * 517) % choices / part % 6]);
                (request.a[2 * place], request.a[2 * place + 1]) = (four[0], four[1]);
                (request.b[2 * place], request.b[2 * place + 1]) = (four[2], four[3]);
            }
            request.c = lanes.vector(random);
        });
    }
}

pub fn dot(generator: &mut Generator) {
    every_four(generator);
    byte_pairs(generator);
    generator.section("random");
    let (bytes, sums) = (Lanes::new(Lane::I8), Lanes::new(Lane::I32));
    for _ in 0..generator.many {
        generator.add(|request, random| {
            request.a = bytes.vector(random);
            request.b = bytes.near_vector(&request.a, random);
            request.c = sums.vector(random);
        });
    }
}

pub fn select(generator: &mut Generator) {
    let lanes = Lanes::new(Lane::I8);
    generator.section("bits");
    for bit in 0..128 {
        for case in 0..8 {
            generator.add(|request, _| {
                let set = |vector: &mut [u8; 16], on: bool| {
                    let mask = 1 << (bit % 8);
                    let byte = &mut vector[bit / 8];
                    *byte = if on { *byte | mask } else { *byte & !mask };
                };
                set(&mut request.a, case & 1 != 0);
                set(&mut request.b, case & 2 != 0);
                set(&mut request.c, case & 4 != 0);
            });
        }
    }
    generator.section("random");
    for _ in 0..generator.many {
        generator.add(|request, random| {
            request.a = lanes.vector(random);
            request.b = lanes.vector(random);
            request.c = lanes.vector(random);
        });
    }
}

/// Counts above 255: around powers of two and the largest number.
const LARGE: [u32; 14] = [
    256,
    257,
    263,
    320,
    1 << 16,
    (1 << 16) + 7,
    (1 << 31) - 1,
    1 << 31,
    (1 << 31) + 1,
    (1 << 31) + 33,
    u32::MAX - 63,
    u32::MAX - 31,
    u32::MAX - 1,
    u32::MAX,
];

/// Every count up to 255 and the large ones, each with every corner value in every place, and random vectors.
fn counts(generator: &mut Generator, lanes: &Lanes) {
    generator.section("counts");
    for count in (0..256).chain(LARGE) {
        for first in 0..lanes.corners.len() {
            generator.add(|request, _| {
                request.count = count;
                for place in 0..lanes.lane.count() {
                    lanes.put(&mut request.a, place, lanes.corners[(first + place) % lanes.corners.len()]);
                }
            });
        }
        for _ in 0..32 {
            generator.add(|request, random| (request.count, request.a) = (count, lanes.vector(random)));
        }
    }
}

/// Every lane of 8 or 16 bits with every count below the width.
fn every_lane_shifted(generator: &mut Generator, lanes: &Lanes) {
    generator.section("lanes by counts");
    let width = lanes.lane.width();
    let step = lanes.lane.count();
    for count in 0..width {
        for first in (0..1 << width).step_by(step) {
            generator.add(|request, _| {
                request.count = count;
                (0..step).for_each(|place| lanes.put(&mut request.a, place, first + place as u64));
            });
        }
    }
}

pub fn shift(generator: &mut Generator, lane: Lane) {
    let lanes = Lanes::new(lane);
    counts(generator, &lanes);
    if lane.width() <= 16 {
        every_lane_shifted(generator, &lanes);
    }
    generator.section("random");
    for _ in 0..generator.many {
        generator.add(|request, random| {
            request.a = lanes.vector(random);
            request.count = match random.below(2) {
                0 => random.below(256) as u32,
                _ => random.next() as u32,
            };
        });
    }
}

/// Every choice of sign bits of the sixteen bytes, and every choice of zero bytes.
fn every_choice(generator: &mut Generator) {
    generator.section("signs");
    for choice in 0..=u16::MAX {
        generator.add(|request, _| {
            for (place, byte) in request.a.iter_mut().enumerate() {
                *byte = (*byte & 0x7f) | (((choice >> place) as u8 & 1) << 7);
            }
        });
    }
    generator.section("zeros");
    for choice in 0..=u16::MAX {
        generator.add(|request, random| {
            for (place, byte) in request.a.iter_mut().enumerate() {
                *byte = ((choice >> place) as u8 & 1) << random.below(8);
            }
        });
    }
}

/// At every width a single lane that is zero, in every place; no other byte is.
fn zero_lanes(generator: &mut Generator) {
    generator.section("zero lanes");
    for bytes in [1, 2, 4, 8] {
        for place in 0..16 / bytes {
            generator.add(|request, _| {
                request.a = request.a.map(|byte| byte.max(1));
                request.a[place * bytes..(place + 1) * bytes].fill(0);
            });
        }
    }
}

pub fn reduce(generator: &mut Generator, lane: Lane) {
    let lanes = Lanes::new(lane);
    zero_lanes(generator);
    generator.section("one bit");
    for bit in 0..128 {
        let vector = (1_u128 << bit).to_le_bytes();
        generator.add(|request, _| request.a = vector);
        generator.add(|request, _| request.a = vector.map(|byte| !byte));
    }
    generator.add(|request, _| request.a = [0; 16]);
    generator.add(|request, _| request.a = [255; 16]);
    every_choice(generator);
    generator.section("random");
    for _ in 0..generator.many {
        generator.add(|request, random| request.a = lanes.vector(random));
    }
}
