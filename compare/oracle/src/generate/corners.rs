//! Corner values of lanes, and random lanes and vectors that hold them.

use super::random::Random;
use crate::table::Lane;

/// The low `width` bits.
fn low(value: u64, width: u32) -> u64 {
    value & (u64::MAX >> (64 - width))
}

/// The ends of the signed and unsigned range, the ends of the range of half the width, powers of two and patterns.
fn integer_corners(width: u32) -> Vec<u64> {
    let half = width / 2;
    let powers = [0, 1, half - 1, half, width - 2, width - 1];
    let around = |bit: u32| [(1_u64 << bit).wrapping_sub(1), 1 << bit, (1_u64 << bit).wrapping_add(1)];
    let mut corners: Vec<u64> = powers.into_iter().flat_map(around).collect();
    corners.extend(corners.clone().into_iter().map(u64::wrapping_neg));
    corners.extend([0x5555_5555_5555_5555, 0xaaaa_aaaa_aaaa_aaaa, 0x0f0f_0f0f_0f0f_0f0f, 0x8080_8080_8080_8080, 0x7f7f_7f7f_7f7f_7f7f]);
    corners.iter_mut().for_each(|corner| *corner = low(*corner, width));
    corners.sort_unstable();
    corners.dedup();
    corners
}

/// Both signs of: zero, the ends of the subnormals and normals, 1 and its neighbour, 2, infinity; NaN quiet and signalling with the
/// least, the largest and a middle payload.
fn float_corners(width: u32, fraction: u32) -> Vec<u64> {
    let unit = 1_u64 << fraction;
    let top = unit >> 1;
    let bias = (1_u64 << (width - fraction - 2)) - 1;
    let infinity = (2 * bias + 1) * unit;
    let numbers = [0, 1, unit - 1, unit, bias * unit, bias * unit + 1, (bias + 1) * unit, infinity - 1, infinity];
    let quiet = [0, 1, top >> 3, top - 1].map(|payload| infinity + top + payload);
    let signalling = [1, top >> 3, top >> 1, top - 1].map(|payload| infinity + payload);
    let positive = [numbers.as_slice(), &quiet, &signalling].concat();
    let negative = positive.iter().map(|bits| bits | (1 << (width - 1)));
    positive.iter().copied().chain(negative).collect()
}

pub fn corners(lane: Lane) -> Vec<u64> {
    match lane {
        Lane::F32 => float_corners(32, 23),
        Lane::F64 => float_corners(64, 52),
        _ => integer_corners(lane.width()),
    }
}

/// A NaN of any kind, sign and payload.
fn nan(lane: Lane, random: &mut Random) -> u64 {
    let bits = random.next();
    match lane {
        Lane::F32 => low(bits, 32) | 0x7f80_0000,
        _ => bits | 0x7ff0_0000_0000_0000,
    }
}

/// Values of one lane: the corners, and random ones.
pub struct Lanes {
    pub lane: Lane,
    pub corners: Vec<u64>,
}

impl Lanes {
    pub fn new(lane: Lane) -> Self {
        Self { lane, corners: corners(lane) }
    }

    pub fn put(&self, vector: &mut [u8; 16], place: usize, value: u64) {
        let bytes = self.lane.width() as usize / 8;
        vector[place * bytes..(place + 1) * bytes].copy_from_slice(&value.to_le_bytes()[..bytes]);
    }

    pub fn get(&self, vector: &[u8; 16], place: usize) -> u64 {
        let bytes = self.lane.width() as usize / 8;
        let mut value = [0; 8];
        value[..bytes].copy_from_slice(&vector[place * bytes..(place + 1) * bytes]);
        u64::from_le_bytes(value)
    }

    /// A lane: a corner, a NaN, few bits, many bits, or anything.
    pub fn value(&self, random: &mut Random) -> u64 {
        let float = matches!(self.lane, Lane::F32 | Lane::F64);
        match random.below(8) {
            0..=2 => random.pick(&self.corners),
            3 if float => nan(self.lane, random),
            3 => random.next() & random.next() & random.next(),
            4 => random.next() | random.next() | random.next(),
            _ => random.next(),
        }
    }

    /// A lane that stands near another: equal, a neighbour, the complement, the other sign.
    fn near(&self, value: u64, random: &mut Random) -> u64 {
        match random.below(10) {
            0 | 1 => value,
            2 => value.wrapping_add(1),
            3 => value.wrapping_sub(1),
            4 => !value,
            5 => value.wrapping_neg(),
            6 => value ^ (1 << (self.lane.width() - 1)),
            _ => self.value(random),
        }
    }

    pub fn vector(&self, random: &mut Random) -> [u8; 16] {
        let mut vector = [0; 16];
        for place in 0..self.lane.count() {
            self.put(&mut vector, place, self.value(random));
        }
        vector
    }

    /// A vector whose lanes stand near those of another.
    pub fn near_vector(&self, other: &[u8; 16], random: &mut Random) -> [u8; 16] {
        let mut vector = [0; 16];
        for place in 0..self.lane.count() {
            self.put(&mut vector, place, self.near(self.get(other, place), random));
        }
        vector
    }
}
