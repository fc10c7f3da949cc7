//! WebAssembly's vector instructions. 276 of the functions are calls of the proved archive through the crate `gatulefo`. The ten that are not carried over,
//! and the types of lane numbers, are those of the file that stood here, which stands unchanged in simd/original.rs.
//!
//! Made by link/place/make of Gatulefo; link/mount puts it here. SPDX-License-Identifier: Apache-2.0

use crate::{TrapCode, V128};
use gatulefo::simd as proved;

// Of the file only what is named below is used.
#[allow(dead_code)]
mod original;

pub use original::{
    ImmLaneIdx, ImmLaneIdx2, ImmLaneIdx4, ImmLaneIdx8, ImmLaneIdx16, ImmLaneIdx32, IntoLaneIdx, OutOfBoundsLaneIdx,
};
pub use original::{
    f32x4_relaxed_madd, f32x4_relaxed_nmadd, f32x4_sqrt, f64x2_relaxed_madd, f64x2_relaxed_nmadd, f64x2_sqrt, i32x4_relaxed_trunc_f32x4_s,
    i32x4_relaxed_trunc_f32x4_u, i32x4_relaxed_trunc_f64x2_s_zero, i32x4_relaxed_trunc_f64x2_u_zero,
};

/// What goes to the archive's crate.
trait Hand {
    type As;
    fn hand(self) -> Self::As;
}

/// What comes back from it.
trait Take {
    type From;
    fn take(from: Self::From) -> Self;
}

impl Hand for V128 {
    type As = gatulefo::V128;
    #[inline]
    fn hand(self) -> gatulefo::V128 {
        gatulefo::V128::from(self.as_u128())
    }
}

impl Take for V128 {
    type From = gatulefo::V128;
    #[inline]
    fn take(from: gatulefo::V128) -> Self {
        Self::from(from.as_u128())
    }
}

impl<const N: u8> Hand for ImmLaneIdx<N> {
    type As = proved::ImmLaneIdx<N>;
    #[inline]
    fn hand(self) -> proved::ImmLaneIdx<N> {
        match proved::ImmLaneIdx::try_from(u8::from(self)) {
            Ok(lane) => lane,
            Err(_) => unreachable!("a lane number is in range by its making"),
        }
    }
}

impl Hand for [ImmLaneIdx32; 16] {
    type As = [proved::ImmLaneIdx32; 16];
    #[inline]
    fn hand(self) -> Self::As {
        self.map(Hand::hand)
    }
}

macro_rules! as_it_is {
    ( $( $ty:ty ),* ) => { $(
        impl Hand for $ty {
            type As = Self;
            #[inline]
            fn hand(self) -> Self {
                self
            }
        }
        impl Take for $ty {
            type From = Self;
            #[inline]
            fn take(from: Self) -> Self {
                from
            }
        }
    )* };
}
as_it_is!((), bool, i8, i16, i32, i64, u32, u64, usize, f32, f64, &[u8], &mut [u8]);

/// The error of an access that is refused: what the crate's own memory module gives for a load of nothing, so that no case of it is named here.
#[cold]
fn refusal() -> TrapCode {
    match original::v128_load_at(&[], 0) {
        Err(code) => code,
        Ok(_) => unreachable!("a load of sixteen bytes from none"),
    }
}

impl<T: Take> Take for Result<T, TrapCode> {
    type From = Result<T::From, gatulefo::TrapCode>;
    #[inline]
    fn take(from: Self::From) -> Self {
        match from {
            Ok(value) => Ok(T::take(value)),
            Err(gatulefo::TrapCode::MemoryOutOfBounds) => Err(refusal()),
        }
    }
}

macro_rules! functions {
    ( $( fn $name:ident( $( $argument:ident: $ty:ty ),* ) -> $result:ty; )* ) => { $(
        #[doc = concat!("Executes a Wasm `", stringify!($name), "` instruction.")]
        #[inline]
        pub fn $name( $( $argument: $ty ),* ) -> $result {
            <$result as Take>::take(proved::$name( $( $argument.hand() ),* ))
        }
    )* };
}

macro_rules! accesses {
    ( $( fn $name:ident( $( $argument:ident: $ty:ty ),* ) -> $result:ty; )* ) => { $(
        #[doc = concat!("Executes a Wasm `", stringify!($name), "` instruction.")]
        ///
        /// # Errors
        ///
        /// If the access runs past the end of `memory`, or its address past the largest number.
        #[inline]
        pub fn $name( $( $argument: $ty ),* ) -> $result {
            <$result as Take>::take(proved::$name( $( $argument.hand() ),* ))
        }
    )* };
}

functions! {
    fn f32x4_ceil(v: V128) -> V128;
    fn f64x2_ceil(v: V128) -> V128;
    fn f32x4_floor(v: V128) -> V128;
    fn f64x2_floor(v: V128) -> V128;
    fn f32x4_trunc(v: V128) -> V128;
    fn f64x2_trunc(v: V128) -> V128;
    fn f32x4_nearest(v: V128) -> V128;
    fn f64x2_nearest(v: V128) -> V128;
    fn f32x4_convert_i32x4_s(v: V128) -> V128;
    fn f32x4_convert_i32x4_u(v: V128) -> V128;
    fn i32x4_trunc_sat_f32x4_s(v: V128) -> V128;
    fn i32x4_trunc_sat_f32x4_u(v: V128) -> V128;
    fn f64x2_convert_low_i32x4_s(v: V128) -> V128;
    fn f64x2_convert_low_i32x4_u(v: V128) -> V128;
    fn f64x2_promote_low_f32x4(v: V128) -> V128;
    fn i32x4_trunc_sat_f64x2_s_zero(v: V128) -> V128;
    fn i32x4_trunc_sat_f64x2_u_zero(v: V128) -> V128;
    fn f32x4_demote_f64x2_zero(v: V128) -> V128;
    fn i64x2_splat(value: i64) -> V128;
    fn i32x4_splat(value: i32) -> V128;
    fn i16x8_splat(value: i16) -> V128;
    fn i8x16_splat(value: i8) -> V128;
    fn f32x4_splat(value: f32) -> V128;
    fn f64x2_splat(value: f64) -> V128;
    fn i64x2_extract_lane(v128: V128, lane: ImmLaneIdx2) -> i64;
    fn i32x4_extract_lane(v128: V128, lane: ImmLaneIdx4) -> i32;
    fn f64x2_extract_lane(v128: V128, lane: ImmLaneIdx2) -> f64;
    fn f32x4_extract_lane(v128: V128, lane: ImmLaneIdx4) -> f32;
    fn i8x16_extract_lane_s(v128: V128, lane: ImmLaneIdx16) -> i32;
    fn i8x16_extract_lane_u(v128: V128, lane: ImmLaneIdx16) -> u32;
    fn i16x8_extract_lane_s(v128: V128, lane: ImmLaneIdx8) -> i32;
    fn i16x8_extract_lane_u(v128: V128, lane: ImmLaneIdx8) -> u32;
    fn i64x2_replace_lane(v128: V128, lane: ImmLaneIdx2, item: i64) -> V128;
    fn i32x4_replace_lane(v128: V128, lane: ImmLaneIdx4, item: i32) -> V128;
    fn i16x8_replace_lane(v128: V128, lane: ImmLaneIdx8, item: i16) -> V128;
    fn i8x16_replace_lane(v128: V128, lane: ImmLaneIdx16, item: i8) -> V128;
    fn f64x2_replace_lane(v128: V128, lane: ImmLaneIdx2, item: f64) -> V128;
    fn f32x4_replace_lane(v128: V128, lane: ImmLaneIdx4, item: f32) -> V128;
    fn i8x16_swizzle(a: V128, s: V128) -> V128;
    fn i8x16_shuffle(a: V128, b: V128, s: [ImmLaneIdx32; 16]) -> V128;
    fn i64x2_add(lhs: V128, rhs: V128) -> V128;
    fn i32x4_add(lhs: V128, rhs: V128) -> V128;
    fn i16x8_add(lhs: V128, rhs: V128) -> V128;
    fn i8x16_add(lhs: V128, rhs: V128) -> V128;
    fn i64x2_sub(lhs: V128, rhs: V128) -> V128;
    fn i32x4_sub(lhs: V128, rhs: V128) -> V128;
    fn i16x8_sub(lhs: V128, rhs: V128) -> V128;
    fn i8x16_sub(lhs: V128, rhs: V128) -> V128;
    fn i64x2_mul(lhs: V128, rhs: V128) -> V128;
    fn i32x4_mul(lhs: V128, rhs: V128) -> V128;
    fn i16x8_mul(lhs: V128, rhs: V128) -> V128;
    fn i8x16_mul(lhs: V128, rhs: V128) -> V128;
    fn i8x16_add_sat_s(lhs: V128, rhs: V128) -> V128;
    fn i8x16_add_sat_u(lhs: V128, rhs: V128) -> V128;
    fn i16x8_add_sat_s(lhs: V128, rhs: V128) -> V128;
    fn i16x8_add_sat_u(lhs: V128, rhs: V128) -> V128;
    fn i8x16_sub_sat_s(lhs: V128, rhs: V128) -> V128;
    fn i8x16_sub_sat_u(lhs: V128, rhs: V128) -> V128;
    fn i16x8_sub_sat_s(lhs: V128, rhs: V128) -> V128;
    fn i16x8_sub_sat_u(lhs: V128, rhs: V128) -> V128;
    fn i16x8_q15mulr_sat_s(lhs: V128, rhs: V128) -> V128;
    fn i8x16_min_s(lhs: V128, rhs: V128) -> V128;
    fn i8x16_min_u(lhs: V128, rhs: V128) -> V128;
    fn i16x8_min_s(lhs: V128, rhs: V128) -> V128;
    fn i16x8_min_u(lhs: V128, rhs: V128) -> V128;
    fn i32x4_min_s(lhs: V128, rhs: V128) -> V128;
    fn i32x4_min_u(lhs: V128, rhs: V128) -> V128;
    fn i8x16_max_s(lhs: V128, rhs: V128) -> V128;
    fn i8x16_max_u(lhs: V128, rhs: V128) -> V128;
    fn i16x8_max_s(lhs: V128, rhs: V128) -> V128;
    fn i16x8_max_u(lhs: V128, rhs: V128) -> V128;
    fn i32x4_max_s(lhs: V128, rhs: V128) -> V128;
    fn i32x4_max_u(lhs: V128, rhs: V128) -> V128;
    fn i8x16_avgr_u(lhs: V128, rhs: V128) -> V128;
    fn i16x8_avgr_u(lhs: V128, rhs: V128) -> V128;
    fn i64x2_neg(v: V128) -> V128;
    fn i32x4_neg(v: V128) -> V128;
    fn i16x8_neg(v: V128) -> V128;
    fn i8x16_neg(v: V128) -> V128;
    fn i8x16_abs(v: V128) -> V128;
    fn i16x8_abs(v: V128) -> V128;
    fn i32x4_abs(v: V128) -> V128;
    fn i64x2_abs(v: V128) -> V128;
    fn i8x16_popcnt(v: V128) -> V128;
    fn v128_and(lhs: V128, rhs: V128) -> V128;
    fn v128_or(lhs: V128, rhs: V128) -> V128;
    fn v128_xor(lhs: V128, rhs: V128) -> V128;
    fn v128_andnot(lhs: V128, rhs: V128) -> V128;
    fn v128_not(v: V128) -> V128;
    fn v128_bitselect(v1: V128, v2: V128, c: V128) -> V128;
    fn f32x4_min(lhs: V128, rhs: V128) -> V128;
    fn f64x2_min(lhs: V128, rhs: V128) -> V128;
    fn f32x4_max(lhs: V128, rhs: V128) -> V128;
    fn f64x2_max(lhs: V128, rhs: V128) -> V128;
    fn f32x4_pmin(lhs: V128, rhs: V128) -> V128;
    fn f64x2_pmin(lhs: V128, rhs: V128) -> V128;
    fn f32x4_pmax(lhs: V128, rhs: V128) -> V128;
    fn f64x2_pmax(lhs: V128, rhs: V128) -> V128;
    fn f32x4_add(lhs: V128, rhs: V128) -> V128;
    fn f64x2_add(lhs: V128, rhs: V128) -> V128;
    fn f32x4_sub(lhs: V128, rhs: V128) -> V128;
    fn f64x2_sub(lhs: V128, rhs: V128) -> V128;
    fn f32x4_div(lhs: V128, rhs: V128) -> V128;
    fn f64x2_div(lhs: V128, rhs: V128) -> V128;
    fn f32x4_mul(lhs: V128, rhs: V128) -> V128;
    fn f64x2_mul(lhs: V128, rhs: V128) -> V128;
    fn f32x4_neg(v: V128) -> V128;
    fn f64x2_neg(v: V128) -> V128;
    fn f32x4_abs(v: V128) -> V128;
    fn f64x2_abs(v: V128) -> V128;
    fn f32x4_eq(lhs: V128, rhs: V128) -> V128;
    fn f64x2_eq(lhs: V128, rhs: V128) -> V128;
    fn f32x4_ne(lhs: V128, rhs: V128) -> V128;
    fn f64x2_ne(lhs: V128, rhs: V128) -> V128;
    fn f32x4_lt(lhs: V128, rhs: V128) -> V128;
    fn f64x2_lt(lhs: V128, rhs: V128) -> V128;
    fn f32x4_le(lhs: V128, rhs: V128) -> V128;
    fn f64x2_le(lhs: V128, rhs: V128) -> V128;
    fn f32x4_gt(lhs: V128, rhs: V128) -> V128;
    fn f64x2_gt(lhs: V128, rhs: V128) -> V128;
    fn f32x4_ge(lhs: V128, rhs: V128) -> V128;
    fn f64x2_ge(lhs: V128, rhs: V128) -> V128;
    fn i8x16_eq(lhs: V128, rhs: V128) -> V128;
    fn i16x8_eq(lhs: V128, rhs: V128) -> V128;
    fn i32x4_eq(lhs: V128, rhs: V128) -> V128;
    fn i64x2_eq(lhs: V128, rhs: V128) -> V128;
    fn i8x16_ne(lhs: V128, rhs: V128) -> V128;
    fn i16x8_ne(lhs: V128, rhs: V128) -> V128;
    fn i32x4_ne(lhs: V128, rhs: V128) -> V128;
    fn i64x2_ne(lhs: V128, rhs: V128) -> V128;
    fn i8x16_lt_s(lhs: V128, rhs: V128) -> V128;
    fn i8x16_lt_u(lhs: V128, rhs: V128) -> V128;
    fn i16x8_lt_s(lhs: V128, rhs: V128) -> V128;
    fn i16x8_lt_u(lhs: V128, rhs: V128) -> V128;
    fn i32x4_lt_s(lhs: V128, rhs: V128) -> V128;
    fn i32x4_lt_u(lhs: V128, rhs: V128) -> V128;
    fn i64x2_lt_s(lhs: V128, rhs: V128) -> V128;
    fn i8x16_le_s(lhs: V128, rhs: V128) -> V128;
    fn i8x16_le_u(lhs: V128, rhs: V128) -> V128;
    fn i16x8_le_s(lhs: V128, rhs: V128) -> V128;
    fn i16x8_le_u(lhs: V128, rhs: V128) -> V128;
    fn i32x4_le_s(lhs: V128, rhs: V128) -> V128;
    fn i32x4_le_u(lhs: V128, rhs: V128) -> V128;
    fn i64x2_le_s(lhs: V128, rhs: V128) -> V128;
    fn i8x16_gt_s(lhs: V128, rhs: V128) -> V128;
    fn i8x16_gt_u(lhs: V128, rhs: V128) -> V128;
    fn i16x8_gt_s(lhs: V128, rhs: V128) -> V128;
    fn i16x8_gt_u(lhs: V128, rhs: V128) -> V128;
    fn i32x4_gt_s(lhs: V128, rhs: V128) -> V128;
    fn i32x4_gt_u(lhs: V128, rhs: V128) -> V128;
    fn i64x2_gt_s(lhs: V128, rhs: V128) -> V128;
    fn i8x16_ge_s(lhs: V128, rhs: V128) -> V128;
    fn i8x16_ge_u(lhs: V128, rhs: V128) -> V128;
    fn i16x8_ge_s(lhs: V128, rhs: V128) -> V128;
    fn i16x8_ge_u(lhs: V128, rhs: V128) -> V128;
    fn i32x4_ge_s(lhs: V128, rhs: V128) -> V128;
    fn i32x4_ge_u(lhs: V128, rhs: V128) -> V128;
    fn i64x2_ge_s(lhs: V128, rhs: V128) -> V128;
    fn i8x16_shl(v: V128, count: u32) -> V128;
    fn i16x8_shl(v: V128, count: u32) -> V128;
    fn i32x4_shl(v: V128, count: u32) -> V128;
    fn i64x2_shl(v: V128, count: u32) -> V128;
    fn i8x16_shr_s(v: V128, count: u32) -> V128;
    fn i8x16_shr_u(v: V128, count: u32) -> V128;
    fn i16x8_shr_s(v: V128, count: u32) -> V128;
    fn i16x8_shr_u(v: V128, count: u32) -> V128;
    fn i32x4_shr_s(v: V128, count: u32) -> V128;
    fn i32x4_shr_u(v: V128, count: u32) -> V128;
    fn i64x2_shr_s(v: V128, count: u32) -> V128;
    fn i64x2_shr_u(v: V128, count: u32) -> V128;
    fn i8x16_all_true(v: V128) -> bool;
    fn i16x8_all_true(v: V128) -> bool;
    fn i32x4_all_true(v: V128) -> bool;
    fn i64x2_all_true(v: V128) -> bool;
    fn i8x16_bitmask(v: V128) -> u32;
    fn i16x8_bitmask(v: V128) -> u32;
    fn i32x4_bitmask(v: V128) -> u32;
    fn i64x2_bitmask(v: V128) -> u32;
    fn v128_any_true(v: V128) -> bool;
    fn i16x8_relaxed_dot_i8x16_i7x16_s(lhs: V128, rhs: V128) -> V128;
    fn i32x4_relaxed_dot_i8x16_i7x16_add_s(lhs: V128, rhs: V128, c: V128) -> V128;
    fn i8x16_relaxed_swizzle(a: V128, s: V128) -> V128;
    fn i8x16_relaxed_laneselect(a: V128, b: V128, c: V128) -> V128;
    fn i16x8_relaxed_laneselect(a: V128, b: V128, c: V128) -> V128;
    fn i32x4_relaxed_laneselect(a: V128, b: V128, c: V128) -> V128;
    fn i64x2_relaxed_laneselect(a: V128, b: V128, c: V128) -> V128;
    fn f32x4_relaxed_min(lhs: V128, rhs: V128) -> V128;
    fn f32x4_relaxed_max(lhs: V128, rhs: V128) -> V128;
    fn f64x2_relaxed_min(lhs: V128, rhs: V128) -> V128;
    fn f64x2_relaxed_max(lhs: V128, rhs: V128) -> V128;
    fn i16x8_relaxed_q15mulr_s(a: V128, b: V128) -> V128;
    fn i16x8_extend_low_i8x16_s(v: V128) -> V128;
    fn i16x8_extend_low_i8x16_u(v: V128) -> V128;
    fn i32x4_extend_low_i16x8_s(v: V128) -> V128;
    fn i32x4_extend_low_i16x8_u(v: V128) -> V128;
    fn i64x2_extend_low_i32x4_s(v: V128) -> V128;
    fn i64x2_extend_low_i32x4_u(v: V128) -> V128;
    fn i16x8_extend_high_i8x16_s(v: V128) -> V128;
    fn i16x8_extend_high_i8x16_u(v: V128) -> V128;
    fn i32x4_extend_high_i16x8_s(v: V128) -> V128;
    fn i32x4_extend_high_i16x8_u(v: V128) -> V128;
    fn i64x2_extend_high_i32x4_s(v: V128) -> V128;
    fn i64x2_extend_high_i32x4_u(v: V128) -> V128;
    fn i16x8_extmul_low_i8x16_s(lhs: V128, rhs: V128) -> V128;
    fn i16x8_extmul_low_i8x16_u(lhs: V128, rhs: V128) -> V128;
    fn i32x4_extmul_low_i16x8_s(lhs: V128, rhs: V128) -> V128;
    fn i32x4_extmul_low_i16x8_u(lhs: V128, rhs: V128) -> V128;
    fn i64x2_extmul_low_i32x4_s(lhs: V128, rhs: V128) -> V128;
    fn i64x2_extmul_low_i32x4_u(lhs: V128, rhs: V128) -> V128;
    fn i16x8_extmul_high_i8x16_s(lhs: V128, rhs: V128) -> V128;
    fn i16x8_extmul_high_i8x16_u(lhs: V128, rhs: V128) -> V128;
    fn i32x4_extmul_high_i16x8_s(lhs: V128, rhs: V128) -> V128;
    fn i32x4_extmul_high_i16x8_u(lhs: V128, rhs: V128) -> V128;
    fn i64x2_extmul_high_i32x4_s(lhs: V128, rhs: V128) -> V128;
    fn i64x2_extmul_high_i32x4_u(lhs: V128, rhs: V128) -> V128;
    fn i16x8_extadd_pairwise_i8x16_s(v: V128) -> V128;
    fn i16x8_extadd_pairwise_i8x16_u(v: V128) -> V128;
    fn i32x4_extadd_pairwise_i16x8_s(v: V128) -> V128;
    fn i32x4_extadd_pairwise_i16x8_u(v: V128) -> V128;
    fn i8x16_narrow_i16x8_s(low: V128, high: V128) -> V128;
    fn i8x16_narrow_i16x8_u(low: V128, high: V128) -> V128;
    fn i16x8_narrow_i32x4_s(low: V128, high: V128) -> V128;
    fn i16x8_narrow_i32x4_u(low: V128, high: V128) -> V128;
    fn i32x4_dot_i16x8_s(lhs: V128, rhs: V128) -> V128;
    fn v128_low32_zero(bits: u32) -> V128;
    fn v128_low64_zero(bits: u64) -> V128;
    fn v128_widen8x8_s(bits: u64) -> V128;
    fn v128_widen8x8_u(bits: u64) -> V128;
    fn v128_widen16x4_s(bits: u64) -> V128;
    fn v128_widen16x4_u(bits: u64) -> V128;
    fn v128_widen32x2_s(bits: u64) -> V128;
    fn v128_widen32x2_u(bits: u64) -> V128;
}

accesses! {
    fn v128_load(memory: &[u8], ptr: u64, offset: u64) -> Result<V128, TrapCode>;
    fn v128_load32_zero(memory: &[u8], ptr: u64, offset: u64) -> Result<V128, TrapCode>;
    fn v128_load64_zero(memory: &[u8], ptr: u64, offset: u64) -> Result<V128, TrapCode>;
    fn v128_load8_splat(memory: &[u8], ptr: u64, offset: u64) -> Result<V128, TrapCode>;
    fn v128_load16_splat(memory: &[u8], ptr: u64, offset: u64) -> Result<V128, TrapCode>;
    fn v128_load32_splat(memory: &[u8], ptr: u64, offset: u64) -> Result<V128, TrapCode>;
    fn v128_load64_splat(memory: &[u8], ptr: u64, offset: u64) -> Result<V128, TrapCode>;
    fn v128_load8x8_s(memory: &[u8], ptr: u64, offset: u64) -> Result<V128, TrapCode>;
    fn v128_load8x8_u(memory: &[u8], ptr: u64, offset: u64) -> Result<V128, TrapCode>;
    fn v128_load16x4_s(memory: &[u8], ptr: u64, offset: u64) -> Result<V128, TrapCode>;
    fn v128_load16x4_u(memory: &[u8], ptr: u64, offset: u64) -> Result<V128, TrapCode>;
    fn v128_load32x2_s(memory: &[u8], ptr: u64, offset: u64) -> Result<V128, TrapCode>;
    fn v128_load32x2_u(memory: &[u8], ptr: u64, offset: u64) -> Result<V128, TrapCode>;
    fn v128_load_at(memory: &[u8], address: usize) -> Result<V128, TrapCode>;
    fn v128_load32_zero_at(memory: &[u8], address: usize) -> Result<V128, TrapCode>;
    fn v128_load64_zero_at(memory: &[u8], address: usize) -> Result<V128, TrapCode>;
    fn v128_load8_splat_at(memory: &[u8], address: usize) -> Result<V128, TrapCode>;
    fn v128_load16_splat_at(memory: &[u8], address: usize) -> Result<V128, TrapCode>;
    fn v128_load32_splat_at(memory: &[u8], address: usize) -> Result<V128, TrapCode>;
    fn v128_load64_splat_at(memory: &[u8], address: usize) -> Result<V128, TrapCode>;
    fn v128_load8x8_s_at(memory: &[u8], address: usize) -> Result<V128, TrapCode>;
    fn v128_load8x8_u_at(memory: &[u8], address: usize) -> Result<V128, TrapCode>;
    fn v128_load16x4_s_at(memory: &[u8], address: usize) -> Result<V128, TrapCode>;
    fn v128_load16x4_u_at(memory: &[u8], address: usize) -> Result<V128, TrapCode>;
    fn v128_load32x2_s_at(memory: &[u8], address: usize) -> Result<V128, TrapCode>;
    fn v128_load32x2_u_at(memory: &[u8], address: usize) -> Result<V128, TrapCode>;
    fn v128_load8_lane(memory: &[u8], ptr: u64, offset: u64, x: V128, lane: ImmLaneIdx16) -> Result<V128, TrapCode>;
    fn v128_load16_lane(memory: &[u8], ptr: u64, offset: u64, x: V128, lane: ImmLaneIdx8) -> Result<V128, TrapCode>;
    fn v128_load32_lane(memory: &[u8], ptr: u64, offset: u64, x: V128, lane: ImmLaneIdx4) -> Result<V128, TrapCode>;
    fn v128_load64_lane(memory: &[u8], ptr: u64, offset: u64, x: V128, lane: ImmLaneIdx2) -> Result<V128, TrapCode>;
    fn v128_load8_lane_at(memory: &[u8], address: usize, x: V128, lane: ImmLaneIdx16) -> Result<V128, TrapCode>;
    fn v128_load16_lane_at(memory: &[u8], address: usize, x: V128, lane: ImmLaneIdx8) -> Result<V128, TrapCode>;
    fn v128_load32_lane_at(memory: &[u8], address: usize, x: V128, lane: ImmLaneIdx4) -> Result<V128, TrapCode>;
    fn v128_load64_lane_at(memory: &[u8], address: usize, x: V128, lane: ImmLaneIdx2) -> Result<V128, TrapCode>;
    fn v128_store(memory: &mut [u8], ptr: u64, offset: u64, value: V128) -> Result<(), TrapCode>;
    fn v128_store_at(memory: &mut [u8], address: usize, value: V128) -> Result<(), TrapCode>;
    fn v128_store8_lane(memory: &mut [u8], ptr: u64, offset: u64, value: V128, imm: ImmLaneIdx16) -> Result<(), TrapCode>;
    fn v128_store16_lane(memory: &mut [u8], ptr: u64, offset: u64, value: V128, imm: ImmLaneIdx8) -> Result<(), TrapCode>;
    fn v128_store32_lane(memory: &mut [u8], ptr: u64, offset: u64, value: V128, imm: ImmLaneIdx4) -> Result<(), TrapCode>;
    fn v128_store64_lane(memory: &mut [u8], ptr: u64, offset: u64, value: V128, imm: ImmLaneIdx2) -> Result<(), TrapCode>;
    fn v128_store8_lane_at(memory: &mut [u8], address: usize, value: V128, imm: ImmLaneIdx16) -> Result<(), TrapCode>;
    fn v128_store16_lane_at(memory: &mut [u8], address: usize, value: V128, imm: ImmLaneIdx8) -> Result<(), TrapCode>;
    fn v128_store32_lane_at(memory: &mut [u8], address: usize, value: V128, imm: ImmLaneIdx4) -> Result<(), TrapCode>;
    fn v128_store64_lane_at(memory: &mut [u8], address: usize, value: V128, imm: ImmLaneIdx2) -> Result<(), TrapCode>;
}

/// Each function has the signature of the one that stood here: two functions go into one array only if they have one type.
#[cfg(test)]
#[test]
fn signatures_are_those_of_the_original() {
    macro_rules! same {
        ( $( $name:ident )* ) => { $( let _ = [original::$name, $name]; )* };
    }
    same! {
        v128_load v128_load32_zero v128_load64_zero v128_load8_splat v128_load16_splat v128_load32_splat v128_load64_splat v128_load8x8_s
        v128_load8x8_u v128_load16x4_s v128_load16x4_u v128_load32x2_s v128_load32x2_u v128_load_at v128_load32_zero_at v128_load64_zero_at
        v128_load8_splat_at v128_load16_splat_at v128_load32_splat_at v128_load64_splat_at v128_load8x8_s_at v128_load8x8_u_at v128_load16x4_s_at
        v128_load16x4_u_at v128_load32x2_s_at v128_load32x2_u_at v128_load8_lane v128_load16_lane v128_load32_lane v128_load64_lane
        v128_load8_lane_at v128_load16_lane_at v128_load32_lane_at v128_load64_lane_at v128_store v128_store_at v128_store8_lane v128_store16_lane
        v128_store32_lane v128_store64_lane v128_store8_lane_at v128_store16_lane_at v128_store32_lane_at v128_store64_lane_at f32x4_ceil f64x2_ceil
        f32x4_floor f64x2_floor f32x4_trunc f64x2_trunc f32x4_nearest f64x2_nearest f32x4_convert_i32x4_s f32x4_convert_i32x4_u
        i32x4_trunc_sat_f32x4_s i32x4_trunc_sat_f32x4_u f64x2_convert_low_i32x4_s f64x2_convert_low_i32x4_u f64x2_promote_low_f32x4
        i32x4_trunc_sat_f64x2_s_zero i32x4_trunc_sat_f64x2_u_zero f32x4_demote_f64x2_zero i64x2_splat i32x4_splat i16x8_splat i8x16_splat f32x4_splat
        f64x2_splat i64x2_extract_lane i32x4_extract_lane f64x2_extract_lane f32x4_extract_lane i8x16_extract_lane_s i8x16_extract_lane_u
        i16x8_extract_lane_s i16x8_extract_lane_u i64x2_replace_lane i32x4_replace_lane i16x8_replace_lane i8x16_replace_lane f64x2_replace_lane
        f32x4_replace_lane i8x16_swizzle i8x16_shuffle i64x2_add i32x4_add i16x8_add i8x16_add i64x2_sub i32x4_sub i16x8_sub i8x16_sub i64x2_mul
        i32x4_mul i16x8_mul i8x16_mul i8x16_add_sat_s i8x16_add_sat_u i16x8_add_sat_s i16x8_add_sat_u i8x16_sub_sat_s i8x16_sub_sat_u i16x8_sub_sat_s
        i16x8_sub_sat_u i16x8_q15mulr_sat_s i8x16_min_s i8x16_min_u i16x8_min_s i16x8_min_u i32x4_min_s i32x4_min_u i8x16_max_s i8x16_max_u
        i16x8_max_s i16x8_max_u i32x4_max_s i32x4_max_u i8x16_avgr_u i16x8_avgr_u i64x2_neg i32x4_neg i16x8_neg i8x16_neg i8x16_abs i16x8_abs
        i32x4_abs i64x2_abs i8x16_popcnt v128_and v128_or v128_xor v128_andnot v128_not v128_bitselect f32x4_min f64x2_min f32x4_max f64x2_max
        f32x4_pmin f64x2_pmin f32x4_pmax f64x2_pmax f32x4_add f64x2_add f32x4_sub f64x2_sub f32x4_div f64x2_div f32x4_mul f64x2_mul f32x4_neg
        f64x2_neg f32x4_abs f64x2_abs f32x4_eq f64x2_eq f32x4_ne f64x2_ne f32x4_lt f64x2_lt f32x4_le f64x2_le f32x4_gt f64x2_gt f32x4_ge f64x2_ge
        i8x16_eq i16x8_eq i32x4_eq i64x2_eq i8x16_ne i16x8_ne i32x4_ne i64x2_ne i8x16_lt_s i8x16_lt_u i16x8_lt_s i16x8_lt_u i32x4_lt_s i32x4_lt_u
        i64x2_lt_s i8x16_le_s i8x16_le_u i16x8_le_s i16x8_le_u i32x4_le_s i32x4_le_u i64x2_le_s i8x16_gt_s i8x16_gt_u i16x8_gt_s i16x8_gt_u
        i32x4_gt_s i32x4_gt_u i64x2_gt_s i8x16_ge_s i8x16_ge_u i16x8_ge_s i16x8_ge_u i32x4_ge_s i32x4_ge_u i64x2_ge_s i8x16_shl i16x8_shl i32x4_shl
        i64x2_shl i8x16_shr_s i8x16_shr_u i16x8_shr_s i16x8_shr_u i32x4_shr_s i32x4_shr_u i64x2_shr_s i64x2_shr_u i8x16_all_true i16x8_all_true
        i32x4_all_true i64x2_all_true i8x16_bitmask i16x8_bitmask i32x4_bitmask i64x2_bitmask v128_any_true i16x8_relaxed_dot_i8x16_i7x16_s
        i32x4_relaxed_dot_i8x16_i7x16_add_s i8x16_relaxed_swizzle i8x16_relaxed_laneselect i16x8_relaxed_laneselect i32x4_relaxed_laneselect
        i64x2_relaxed_laneselect f32x4_relaxed_min f32x4_relaxed_max f64x2_relaxed_min f64x2_relaxed_max i16x8_relaxed_q15mulr_s
        i16x8_extend_low_i8x16_s i16x8_extend_low_i8x16_u i32x4_extend_low_i16x8_s i32x4_extend_low_i16x8_u i64x2_extend_low_i32x4_s
        i64x2_extend_low_i32x4_u i16x8_extend_high_i8x16_s i16x8_extend_high_i8x16_u i32x4_extend_high_i16x8_s i32x4_extend_high_i16x8_u
        i64x2_extend_high_i32x4_s i64x2_extend_high_i32x4_u i16x8_extmul_low_i8x16_s i16x8_extmul_low_i8x16_u i32x4_extmul_low_i16x8_s
        i32x4_extmul_low_i16x8_u i64x2_extmul_low_i32x4_s i64x2_extmul_low_i32x4_u i16x8_extmul_high_i8x16_s i16x8_extmul_high_i8x16_u
        i32x4_extmul_high_i16x8_s i32x4_extmul_high_i16x8_u i64x2_extmul_high_i32x4_s i64x2_extmul_high_i32x4_u i16x8_extadd_pairwise_i8x16_s
        i16x8_extadd_pairwise_i8x16_u i32x4_extadd_pairwise_i16x8_s i32x4_extadd_pairwise_i16x8_u i8x16_narrow_i16x8_s i8x16_narrow_i16x8_u
        i16x8_narrow_i32x4_s i16x8_narrow_i32x4_u i32x4_dot_i16x8_s v128_low32_zero v128_low64_zero v128_widen8x8_s v128_widen8x8_u v128_widen16x4_s
        v128_widen16x4_u v128_widen32x2_s v128_widen32x2_u
    }
}
