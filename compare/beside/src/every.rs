//! Every input of one lane, for functions of one lane of 32 bits: every number of 32 bits in one place of the low and in the other place of the high half, or as the
//! scalar of a splat.

use crate::port;
use crate::table::Entry;
use crate::tally::{Tally, hex};
use crate::wire::{Outcome, Request};
use oracle::table::{self, Shape};
use oracle::wire;

/// Whether a function is one of a lane of 32 bits.
pub fn has_all(shape: Shape) -> bool {
    match shape {
        Shape::Unary(lane) | Shape::Splat(lane) | Shape::Converted { reads: lane, .. } => lane.width() == 32,
        _ => false,
    }
}

/// The lanes x and x with its top bit set, in the low half and the other way round in the high half.
fn vector(x: u32) -> [u8; 16] {
    let (low, high) = (u128::from(x), u128::from(x | 1 << 31));
    (low | high << 32 | high << 64 | low << 96).to_le_bytes()
}

/// Compares the answers to one input, the Rust's NaN lanes as the one pattern where the standard leaves it open.
fn compare(tally: &mut Tally, rust: (&table::Entry, &wire::Request), port: (&Entry, &Request)) {
    let answers =
        ((rust.0.call)(rust.1, &mut []).map(|outcome| table::with_one_nan(outcome, rust.0.shape)), (port.0.call)(port.1, &mut []));
    let (Ok(wire::Outcome::Vector(rust)), Ok(Outcome::Vector(port))) = answers else { unreachable!("a function that gives a vector") };
    let (rust, port) = (rust.bytes(), port.bytes());
    tally.compare(&rust, &port, || format!("   rust {}\n   port {}", hex(&rust), hex(&port)));
}

/// Compares every input, or of them one in `stride`.
pub fn function(number: u16, stride: usize) -> Tally {
    let mut tally = Tally::new(format!("{}, one lane", table::name(number)), true);
    let (mut rust, mut port) = (wire::Request::zero(number), Request::zero(number));
    let entries = (table::entry(number).expect("a function"), port::entry(number));
    let splat = matches!(entries.0.shape, Shape::Splat(_));
    let end = if splat { 1_u64 << 32 } else { 1 << 31 };
    for x in (0..end).step_by(stride) {
        match splat {
            true => (rust.scalar, port.scalar) = (x, x),
            false => (rust.a, port.a) = (vector(x as u32), vector(x as u32)),
        }
        compare(&mut tally, (entries.0, &rust), (entries.1, &port));
    }
    tally
}
