//! The fixed list (set 0) tells every two functions apart: for each function there is a record that any other would answer differently.
//! The exceptions do the same under two names or more.

use oracle::records;
use oracle::table;
use oracle::wire::{PACKED, Request};
use std::collections::BTreeSet;

const SAME_BITS: [&[&str]; 11] = [
    &["i32x4_splat", "f32x4_splat"],
    &["i64x2_splat", "f64x2_splat"],
    &["i32x4_replace_lane", "f32x4_replace_lane"],
    &["i64x2_replace_lane", "f64x2_replace_lane"],
    &["i8x16_swizzle", "i8x16_relaxed_swizzle"],
    &["v128_bitselect", "i8x16_relaxed_laneselect", "i16x8_relaxed_laneselect", "i32x4_relaxed_laneselect", "i64x2_relaxed_laneselect"],
    &["i16x8_q15mulr_sat_s", "i16x8_relaxed_q15mulr_s"],
    &["f32x4_min", "f32x4_relaxed_min"],
    &["f32x4_max", "f32x4_relaxed_max"],
    &["f64x2_min", "f64x2_relaxed_min"],
    &["f64x2_max", "f64x2_relaxed_max"],
];

fn same(one: &str, other: &str) -> bool {
    one == other || SAME_BITS.iter().any(|names| names.contains(&one) && names.contains(&other))
}

#[test]
fn no_function_passes_for_another() {
    let list = records::fixed_list();
    let all: BTreeSet<u16> = table::numbers().into_iter().collect();
    for other in all.iter().copied().filter(|number| *number < PACKED) {
        let refuted = list.iter().filter(|record| {
            let request = Request { function: other, ..record.request };
            !record.agrees(&table::answer(&request))
        });
        let refuted: BTreeSet<u16> = refuted.map(|record| record.request.function).collect();
        for number in all.difference(&refuted) {
            let (one, other) = (table::entry(*number).unwrap().name, table::entry(other).unwrap().name);
            assert!(same(one, other), "{other} passes for {}", table::name(*number));
        }
    }
}
