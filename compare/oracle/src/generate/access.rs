//! Requests for loads and stores: every length, the places around each bound, sums that would come round, shortfalls that are held, lane numbers.

use super::Generator;
use super::random::Random;
use crate::table::Access;
use crate::wire::{MEMORY, Request};

/// Sets the memory's length; the bytes before it are noise, those behind it zero.
fn lend(request: &mut Request, length: u8, random: &mut Random) {
    request.length = length;
    request.memory = [0; MEMORY];
    request.memory[..usize::from(length)].iter_mut().for_each(|byte| *byte = random.byte());
}

/// Sets the place of the access; an `_at` form has only an address, and its offset stays noise.
fn place(request: &mut Request, access: Access, pointer: u64, offset: u64) {
    match access.at {
        true => request.pointer = pointer.wrapping_add(offset),
        false => (request.pointer, request.offset) = (pointer, offset),
    }
}

fn valid_lane(request: &mut Request, access: Access) {
    if access.lanes > 0 {
        request.lane %= access.lanes;
    }
}

/// For every length the last access that fits and the first that does not, the sum split in several ways.
fn edges(generator: &mut Generator, access: Access) {
    generator.section("edges");
    for length in 0..=MEMORY as u64 {
        for last in [length, length + 1].into_iter().filter(|last| *last >= access.bytes) {
            let sum = last - access.bytes;
            for offset in [0, sum / 2, sum] {
                generator.add(|request, random| {
                    lend(request, length as u8, random);
                    place(request, access, sum - offset, offset);
                    valid_lane(request, access);
                });
            }
        }
    }
}

/// Every length with every place from 0 to 50.
fn places(generator: &mut Generator, access: Access) {
    generator.section("places");
    for length in 0..=MEMORY as u8 {
        for sum in 0..=50 {
            for offset in [0, 1.min(sum), sum / 2, sum] {
                generator.add(|request, random| {
                    lend(request, length, random);
                    place(request, access, sum - offset, offset);
                    valid_lane(request, access);
                });
            }
        }
    }
}

/// Numbers around which a sum comes round, or loses its high bits.
fn far(bytes: u64) -> Vec<u64> {
    let high = [u64::MAX, u64::MAX - bytes - 1, u64::MAX - bytes, u64::MAX - bytes + 1, u64::MAX - 15, u64::MAX - 47];
    let middle =
        [1 << 63, (1 << 63) - 1, (1 << 63) + 1, (1 << 63) - bytes, 1 << 32, (1 << 32) - 1, (1 << 32) - bytes, 1 << 31, 1 << 16, 1 << 8];
    let near = [0, 1, 2, bytes, 16, 47, 48, 49];
    [high.as_slice(), &middle, &near].concat()
}

fn far_places(generator: &mut Generator, access: Access) {
    generator.section("far places");
    for pointer in far(access.bytes) {
        for offset in far(access.bytes) {
            for length in [0, 1, access.bytes as u8, 16, 17, 31, 32, 47, 48] {
                generator.add(|request, random| {
                    lend(request, length, random);
                    place(request, access, pointer, offset);
                    valid_lane(request, access);
                });
            }
        }
    }
}

/// Exact shortfalls around the largest that is told, 2^64 - 1.
fn shortfalls(generator: &mut Generator, access: Access) {
    generator.section("shortfalls");
    for length in [0, 1, 5, 16, 48] {
        for exact in [(1 << 64) - 2, (1 << 64) - 1, 1 << 64] {
            let sum = exact + u128::from(length) - u128::from(access.bytes);
            let pointer = u64::try_from(sum).unwrap_or(u64::MAX);
            let offset = (sum - u128::from(pointer)) as u64;
            if !access.at || offset == 0 {
                generator.add(|request, random| {
                    lend(request, length, random);
                    place(request, access, pointer, offset);
                    valid_lane(request, access);
                });
            }
        }
    }
}

/// Every lane number with an access that fits and one that does not.
fn lane_numbers(generator: &mut Generator, access: Access) {
    generator.section("lane edges");
    for lane in [access.lanes - 1, access.lanes, 255] {
        for pointer in [0, MEMORY as u64] {
            add_lane(generator, access, lane, pointer);
        }
    }
    generator.section("lane numbers");
    for lane in (0..=255).flat_map(|lane| [lane; 8]) {
        for pointer in [0, 1, 7, MEMORY as u64 - access.bytes, MEMORY as u64 - access.bytes + 1, u64::MAX] {
            add_lane(generator, access, lane, pointer);
        }
    }
}

fn add_lane(generator: &mut Generator, access: Access, lane: u8, pointer: u64) {
    generator.add(|request, random| {
        lend(request, MEMORY as u8, random);
        place(request, access, pointer, 0);
        request.lane = lane;
    });
}

pub fn access(generator: &mut Generator, access: Access) {
    edges(generator, access);
    places(generator, access);
    far_places(generator, access);
    shortfalls(generator, access);
    if access.lanes > 0 {
        lane_numbers(generator, access);
    }
    random_places(generator, access);
}

/// Random places, most of them within bounds: more than 100,000 accesses that are made.
fn random_places(generator: &mut Generator, access: Access) {
    generator.section("random");
    for _ in 0..generator.many / 4 * 5 {
        generator.add(|request, random| {
            let all = MEMORY as u64 + 1;
            let length = match random.below(16) {
                0 => random.below(all),
                _ => access.bytes + random.below(all - access.bytes),
            };
            lend(request, length as u8, random);
            let sum = match random.below(16) {
                0 => random.below(length + 2),
                _ => random.below(length.saturating_sub(access.bytes) + 1),
            };
            let offset = random.below(sum + 1);
            place(request, access, sum - offset, offset);
            valid_lane(request, access);
        });
    }
}
