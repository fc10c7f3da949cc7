//! Records of the program `check_rows`: rows of vectors as halves, and what the Rust's single operation makes of each vector. The refusal is from document 02's
//! order 6, since the Rust has no rows.

use crate::generate::random::Random;
use crate::{V128, simd};
use std::io::{self, Write};

/// The halves of a row in a record.
const ROOM: usize = 80;

const ADD: u8 = 0;

const XOR: u8 = 1;

const POPCNT: u8 = 2;

/// Lane values at which a carry, a borrow or a count is at an end.
const CORNERS: [u8; 6] = [0, 1, 0x7f, 0x80, 0xfe, 0xff];

fn vector(halves: &[u64]) -> V128 {
    V128::from(u128::from(halves[0]) | u128::from(halves[1]) << 64)
}

fn single(operation: u8, a: V128, b: V128) -> V128 {
    match operation {
        ADD => simd::i8x16_add(a, b),
        XOR => simd::v128_xor(a, b),
        _ => simd::i8x16_popcnt(a),
    }
}

struct Rows {
    operation: u8,
    first: Vec<u64>,
    second: Vec<u64>,
}

impl Rows {
    /// Rows of n and m halves: half of the lanes any, half of them corners.
    fn random(operation: u8, n: usize, m: usize, random: &mut Random) -> Self {
        let mut row = |length: usize| (0..length).map(|_| u64::from_le_bytes([(); 8].map(|()| Self::lane(random)))).collect();
        Self { operation, first: row(n), second: row(m) }
    }

    fn lane(random: &mut Random) -> u8 {
        if random.below(2) == 0 { random.byte() } else { random.pick(&CORNERS) }
    }

    /// 12 "when the two rows differ in length or a row of halves is odd"; popcnt has one row.
    fn refusal(&self) -> u8 {
        let uneven = self.operation != POPCNT && self.first.len() != self.second.len();
        if uneven || self.first.len() % 2 == 1 { 12 } else { 0 }
    }

    fn after(&self) -> Vec<u64> {
        if self.refusal() != 0 {
            return self.first.clone();
        }
        let pairs = self.first.chunks(2).enumerate();
        let vectors = pairs
            .map(|(i, a)| single(self.operation, vector(a), self.second.get(2 * i..2 * i + 2).map_or(V128::default(), vector)).as_u128());
        vectors.flat_map(|v| [v as u64, (v >> 64) as u64]).collect()
    }

    fn record(&self) -> Vec<u8> {
        let mut bytes = vec![self.operation, self.first.len() as u8, self.second.len() as u8, self.refusal()];
        for row in [&self.first, &self.second, &self.after()] {
            let start = bytes.len();
            bytes.extend(row.iter().flat_map(|half| half.to_le_bytes()));
            bytes.resize(start + 8 * ROOM, 0);
        }
        bytes
    }
}

/// The gate's list: for each operation rows of 0 to 40 vectors, rows with an odd half, and second rows that are shorter or longer by 1, 2 or more halves.
fn fixed(random: &mut Random) -> Vec<Rows> {
    let mut rows = Vec::new();
    for operation in [ADD, XOR, POPCNT] {
        rows.extend((0..=ROOM / 2).map(|n| Rows::random(operation, 2 * n, 2 * n, random)));
        rows.extend((1..ROOM).step_by(6).map(|n| Rows::random(operation, n, n, random)));
    }
    for operation in [ADD, XOR] {
        for (n, m) in [
            (0, 1),
            (1, 0),
            (0, 2),
            (2, 0),
            (2, 1),
            (1, 2),
            (3, 2),
            (2, 4),
            (4, 2),
            (40, 80),
            (80, 40),
            (78, 80),
            (80, 78),
            (79, 80),
            (80, 79),
        ] {
            rows.push(Rows::random(operation, n, m, random));
        }
    }
    rows
}

/// Any operation and any two lengths, mostly the same.
fn any(random: &mut Random) -> Rows {
    let operation = random.below(3) as u8;
    let n = random.below(ROOM as u64 + 1) as usize;
    let m = if random.below(4) == 0 { random.below(ROOM as u64 + 1) as usize } else { n };
    let even = random.below(4) != 0;
    if even { Rows::random(operation, n & !1, m & !1, random) } else { Rows::random(operation, n, m, random) }
}

/// Writes the gate's list, or as many other records as are asked for.
pub fn write(count: Option<u64>) -> io::Result<()> {
    let mut out = io::BufWriter::new(io::stdout().lock());
    let mut random = Random::new(6);
    match count {
        None => fixed(&mut random).iter().try_for_each(|rows| out.write_all(&rows.record()))?,
        Some(count) => (0..count).try_for_each(|_| out.write_all(&any(&mut random).record()))?,
    }
    out.flush()
}
