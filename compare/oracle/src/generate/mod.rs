//! Requests for every function, the same in every run: what can be enumerated is, corner values and random ones besides.
//!
//! Every field that an operation does not use carries noise, so that reading it would be seen. Bytes behind the memory's length are zero.

mod access;
mod corners;
mod float;
mod lanes;
pub mod random;
mod vectors;

use crate::table::{self, Shape};
use crate::wire::{MEMORY, REQUEST, Request};
use random::Random;

/// Random vectors for each function, beyond those that are enumerated, unless another number is named.
pub const RANDOM: usize = 100_000;
/// Requests that are handed on at once.
const BATCH: usize = 65_536;

/// A part of a function's requests: its name and where it begins.
#[derive(Clone, Copy)]
pub struct Section {
    pub name: &'static str,
    pub start: usize,
}

/// What takes requests as they are made.
pub type Taker<'a> = &'a mut dyn FnMut(&[[u8; REQUEST]]);

/// The requests of one function; those that were handed on are not kept.
pub struct Generator<'a> {
    number: u16,
    random: Random,
    /// How many random vectors are made.
    many: usize,
    taker: Option<Taker<'a>>,
    pub requests: Vec<[u8; REQUEST]>,
    pub sections: Vec<Section>,
}

impl<'a> Generator<'a> {
    fn new(number: u16) -> Self {
        let random = Random::new(number.into());
        Self { number, random, many: RANDOM, taker: None, requests: Vec::new(), sections: Vec::new() }
    }

    /// Hands on what there is, where there is a taker.
    fn hand_on(&mut self) {
        if let Some(taker) = &mut self.taker {
            taker(&self.requests);
            self.requests.clear();
        }
    }

    fn section(&mut self, name: &'static str) {
        self.sections.push(Section { name, start: self.requests.len() });
    }

    /// A request of which every field is noise, but for the memory's length, which is at most 48.
    fn noise(&mut self) -> Request {
        let mut bytes = [0; REQUEST];
        for part in bytes.chunks_exact_mut(8) {
            part.copy_from_slice(&self.random.next().to_le_bytes());
        }
        let mut request = Request::from_bytes(&bytes);
        request.function = self.number;
        request.length = self.random.below(MEMORY as u64 + 1) as u8;
        request.memory[usize::from(request.length)..].fill(0);
        request
    }

    /// Adds a request of noise with the fields that `set` sets.
    fn add(&mut self, set: impl FnOnce(&mut Request, &mut Random)) {
        let mut request = self.noise();
        set(&mut request, &mut self.random);
        self.requests.push(request.to_bytes());
        if self.requests.len() == BATCH {
            self.hand_on();
        }
    }
}

/// The requests of a function or packed form.
pub fn function(number: u16, shape: Shape) -> Generator<'static> {
    let mut generator = Generator::new(number);
    generate(&mut generator, shape);
    generator
}

/// The same with as many random ones as named, handed on batch by batch.
pub fn hand_on(number: u16, shape: Shape, many: usize, taker: Taker) {
    let mut generator = Generator { many, taker: Some(taker), ..Generator::new(number) };
    generate(&mut generator, shape);
    generator.hand_on();
}

fn generate(generator: &mut Generator, shape: Shape) {
    match shape {
        Shape::Splat(lane) => lanes::splat(generator, lane),
        Shape::Extract(lane) => lanes::extract(generator, lane),
        Shape::Replace(lane) => lanes::replace(generator, lane),
        Shape::Shuffle => lanes::shuffle(generator),
        Shape::Swizzle => lanes::swizzle(generator),
        Shape::Unary(lane) => vectors::unary(generator, lane),
        Shape::Binary(lane) => vectors::binary(generator, lane),
        Shape::Arithmetic(lane) => float::arithmetic(generator, lane),
        Shape::Converted { reads, .. } => float::converted(generator, reads),
        Shape::Select => vectors::select(generator),
        Shape::Dot => vectors::dot(generator),
        Shape::Shift(lane) => vectors::shift(generator, lane),
        Shape::Reduce(lane) => vectors::reduce(generator, lane),
        Shape::Bits => lanes::bits(generator),
        Shape::Memory(access) => access::access(generator, access),
    }
}

/// Requests that name no function here (every such number), and memory lengths above 48 for every function.
pub fn refused() -> Generator<'static> {
    let mut generator = Generator::new(0);
    generator.section("numbers");
    for number in (0..=u16::MAX).filter(|number| table::entry(*number).is_none()) {
        generator.add(|request, _| request.function = number);
    }
    generator.section("lengths");
    for number in table::numbers() {
        for length in [49, 50, 64, 127, 128, 255] {
            generator.add(|request, _| {
                *request = Request { function: number, length, memory: [0; MEMORY], ..*request };
            });
        }
    }
    generator
}
