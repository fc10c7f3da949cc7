//! Requests for operations with a lane number, a scalar or indices: splat, extract, replace, shuffle, swizzle, bits.

use super::Generator;
use super::corners::Lanes;
use crate::table::Lane;

/// A scalar whose low bits are a lane's value, with noise above.
fn above(lane: Lane, value: u64, noise: u64) -> u64 {
    match lane.width() {
        64 => value,
        width => (value & ((1 << width) - 1)) | (noise << width),
    }
}

pub fn splat(generator: &mut Generator, lane: Lane) {
    let lanes = Lanes::new(lane);
    generator.section("corners");
    for corner in &lanes.corners {
        generator.add(|request, _| request.scalar = above(lane, *corner, request.scalar));
    }
    generator.section("16-bit values");
    for value in 0..=u16::MAX {
        generator.add(|request, _| request.scalar = (request.scalar & !0xffff) | u64::from(value));
    }
    generator.section("random");
    for _ in 0..generator.many {
        generator.add(|request, random| request.scalar = above(lane, lanes.value(random), request.scalar));
    }
}

/// Every lane number, the last that passes and the first that does not among them, with random vectors.
fn lane_numbers(generator: &mut Generator, lanes: &Lanes) {
    generator.section("edges");
    for number in [0, lanes.lane.count() as u8 - 1, lanes.lane.count() as u8, 255] {
        generator.add(|request, _| request.lane = number);
    }
    generator.section("lane numbers");
    for number in 0..=255 {
        for _ in 0..64 {
            generator.add(|request, random| (request.lane, request.a) = (number, lanes.vector(random)));
        }
    }
}

pub fn extract(generator: &mut Generator, lane: Lane) {
    let lanes = Lanes::new(lane);
    lane_numbers(generator, &lanes);
    generator.section("corners");
    for corner in &lanes.corners {
        for place in 0..lane.count() {
            generator.add(|request, _| {
                request.lane = place as u8;
                lanes.put(&mut request.a, place, *corner);
            });
        }
    }
    generator.section("random");
    for _ in 0..generator.many {
        generator.add(|request, random| {
            request.lane = random.below(lane.count() as u64) as u8;
            request.a = lanes.vector(random);
        });
    }
}

pub fn replace(generator: &mut Generator, lane: Lane) {
    let lanes = Lanes::new(lane);
    lane_numbers(generator, &lanes);
    generator.section("corners");
    for corner in &lanes.corners {
        for place in 0..lane.count() {
            generator.add(|request, _| {
                request.lane = place as u8;
                request.scalar = above(lane, *corner, request.scalar);
            });
        }
    }
    generator.section("random");
    for _ in 0..generator.many {
        generator.add(|request, random| {
            request.lane = random.below(lane.count() as u64) as u8;
            request.a = lanes.vector(random);
            request.scalar = above(lane, lanes.value(random), request.scalar);
        });
    }
}

pub fn shuffle(generator: &mut Generator) {
    generator.section("edges");
    for place in 0..16 {
        for index in [0, 15, 16, 31, 32, 255] {
            generator.add(|request, _| {
                request.c = request.c.map(|byte| byte & 31);
                request.c[place] = index;
            });
        }
    }
    generator.section("indices");
    for place in 0..16 {
        for index in (0..=255).flat_map(|index| [index; 8]) {
            generator.add(|request, _| {
                request.c = request.c.map(|byte| byte & 31);
                request.c[place] = index;
            });
        }
    }
    generator.section("anything");
    (0..10_000).for_each(|_| generator.add(|_, _| ()));
    generator.section("random");
    for _ in 0..generator.many {
        generator.add(|request, _| request.c = request.c.map(|byte| byte & 31));
    }
}

pub fn swizzle(generator: &mut Generator) {
    generator.section("indices");
    for place in 0..16 {
        for index in (0..=255).flat_map(|index| [index; 8]) {
            generator.add(|request, _| {
                request.b = request.b.map(|byte| byte & 31);
                request.b[place] = index;
            });
        }
    }
    generator.section("random");
    for _ in 0..generator.many {
        generator.add(|request, random| {
            let mask = random.pick(&[15, 31, 255]);
            request.b = request.b.map(|byte| byte & mask);
        });
    }
}

pub fn bits(generator: &mut Generator) {
    generator.section("16-bit values");
    for place in 0..4 {
        for value in 0..=u16::MAX {
            let part = u64::from(value) << (16 * place);
            generator.add(|request, _| request.scalar = (request.scalar & !(0xffff << (16 * place))) | part);
        }
    }
    for lane in [Lane::I8, Lane::I16, Lane::I32, Lane::I64] {
        generator.section("random");
        let lanes = Lanes::new(lane);
        for _ in 0..generator.many / 4 {
            generator.add(|request, random| request.scalar = low_half(&lanes.vector(random)));
        }
    }
}

/// The low half of a vector.
fn low_half(vector: &[u8; 16]) -> u64 {
    u128::from_le_bytes(*vector) as u64
}
