//! Loads and stores. The numbers given are the bytes of the access and, for a lane access, the lane count.

use super::{lane, past_the_end};
use crate::simd;
use crate::table::{Access, Entry, Shape};
use crate::wire::Outcome;

macro_rules! load {
    ( $( fn $name:ident($bytes:literal); )* ) => { vec![ $( Entry {
        name: stringify!($name),
        shape: Shape::Memory(Access { bytes: $bytes, at: false, lanes: 0 }),
        call: |request, memory| {
            simd::$name(memory, request.pointer, request.offset).map(Outcome::from).map_err(past_the_end)
        },
    } ),* ] };
}

macro_rules! load_at {
    ( $( fn $name:ident($bytes:literal); )* ) => { vec![ $( Entry {
        name: stringify!($name),
        shape: Shape::Memory(Access { bytes: $bytes, at: true, lanes: 0 }),
        call: |request, memory| {
            simd::$name(memory, request.pointer as usize).map(Outcome::from).map_err(past_the_end)
        },
    } ),* ] };
}

macro_rules! load_lane {
    ( $( fn $name:ident($bytes:literal, $lanes:literal); )* ) => { vec![ $( Entry {
        name: stringify!($name),
        shape: Shape::Memory(Access { bytes: $bytes, at: false, lanes: $lanes }),
        call: |request, memory| {
            let lane = lane::<$lanes>(request.lane)?;
            simd::$name(memory, request.pointer, request.offset, request.a.into(), lane).map(Outcome::from).map_err(past_the_end)
        },
    } ),* ] };
}

macro_rules! load_lane_at {
    ( $( fn $name:ident($bytes:literal, $lanes:literal); )* ) => { vec![ $( Entry {
        name: stringify!($name),
        shape: Shape::Memory(Access { bytes: $bytes, at: true, lanes: $lanes }),
        call: |request, memory| {
            let lane = lane::<$lanes>(request.lane)?;
            simd::$name(memory, request.pointer as usize, request.a.into(), lane).map(Outcome::from).map_err(past_the_end)
        },
    } ),* ] };
}

macro_rules! store {
    ( $( fn $name:ident($bytes:literal); )* ) => { vec![ $( Entry {
        name: stringify!($name),
        shape: Shape::Memory(Access { bytes: $bytes, at: false, lanes: 0 }),
        call: |request, memory| {
            simd::$name(memory, request.pointer, request.offset, request.a.into()).map(Outcome::from).map_err(past_the_end)
        },
    } ),* ] };
}

macro_rules! store_at {
    ( $( fn $name:ident($bytes:literal); )* ) => { vec![ $( Entry {
        name: stringify!($name),
        shape: Shape::Memory(Access { bytes: $bytes, at: true, lanes: 0 }),
        call: |request, memory| {
            simd::$name(memory, request.pointer as usize, request.a.into()).map(Outcome::from).map_err(past_the_end)
        },
    } ),* ] };
}

macro_rules! store_lane {
    ( $( fn $name:ident($bytes:literal, $lanes:literal); )* ) => { vec![ $( Entry {
        name: stringify!($name),
        shape: Shape::Memory(Access { bytes: $bytes, at: false, lanes: $lanes }),
        call: |request, memory| {
            let lane = lane::<$lanes>(request.lane)?;
            simd::$name(memory, request.pointer, request.offset, request.a.into(), lane).map(Outcome::from).map_err(past_the_end)
        },
    } ),* ] };
}

macro_rules! store_lane_at {
    ( $( fn $name:ident($bytes:literal, $lanes:literal); )* ) => { vec![ $( Entry {
        name: stringify!($name),
        shape: Shape::Memory(Access { bytes: $bytes, at: true, lanes: $lanes }),
        call: |request, memory| {
            let lane = lane::<$lanes>(request.lane)?;
            simd::$name(memory, request.pointer as usize, request.a.into(), lane).map(Outcome::from).map_err(past_the_end)
        },
    } ),* ] };
}

fn loads() -> Vec<Entry> {
    load! {
        fn v128_load(16);
        fn v128_load32_zero(4);
        fn v128_load64_zero(8);
        fn v128_load8_splat(1);
        fn v128_load16_splat(2);
        fn v128_load32_splat(4);
        fn v128_load64_splat(8);
        fn v128_load8x8_s(8);
        fn v128_load8x8_u(8);
        fn v128_load16x4_s(8);
        fn v128_load16x4_u(8);
        fn v128_load32x2_s(8);
        fn v128_load32x2_u(8);
    }
}

fn load_ats() -> Vec<Entry> {
    load_at! {
        fn v128_load_at(16);
        fn v128_load32_zero_at(4);
        fn v128_load64_zero_at(8);
        fn v128_load8_splat_at(1);
        fn v128_load16_splat_at(2);
        fn v128_load32_splat_at(4);
        fn v128_load64_splat_at(8);
        fn v128_load8x8_s_at(8);
        fn v128_load8x8_u_at(8);
        fn v128_load16x4_s_at(8);
        fn v128_load16x4_u_at(8);
        fn v128_load32x2_s_at(8);
        fn v128_load32x2_u_at(8);
    }
}

fn load_lanes() -> Vec<Entry> {
    load_lane! {
        fn v128_load8_lane(1, 16);
        fn v128_load16_lane(2, 8);
        fn v128_load32_lane(4, 4);
        fn v128_load64_lane(8, 2);
    }
}

fn load_lane_ats() -> Vec<Entry> {
    load_lane_at! {
        fn v128_load8_lane_at(1, 16);
        fn v128_load16_lane_at(2, 8);
        fn v128_load32_lane_at(4, 4);
        fn v128_load64_lane_at(8, 2);
    }
}

fn stores() -> Vec<Entry> {
    store! {
        fn v128_store(16);
    }
}

fn store_ats() -> Vec<Entry> {
    store_at! {
        fn v128_store_at(16);
    }
}

fn store_lanes() -> Vec<Entry> {
    store_lane! {
        fn v128_store8_lane(1, 16);
        fn v128_store16_lane(2, 8);
        fn v128_store32_lane(4, 4);
        fn v128_store64_lane(8, 2);
    }
}

fn store_lane_ats() -> Vec<Entry> {
    store_lane_at! {
        fn v128_store8_lane_at(1, 16);
        fn v128_store16_lane_at(2, 8);
        fn v128_store32_lane_at(4, 4);
        fn v128_store64_lane_at(8, 2);
    }
}

pub fn entries() -> Vec<Entry> {
    let loads = [loads(), load_ats(), load_lanes(), load_lane_ats()];
    let stores = [stores(), store_ats(), store_lanes(), store_lane_ats()];
    [loads.concat(), stores.concat()].concat()
}
