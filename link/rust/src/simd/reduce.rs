//! All-true, any-true, bitmask.

use crate::V128;

linked! { "gatulefo_";
    fn i8x16_all_true(v: V128) -> bool;
    fn i16x8_all_true(v: V128) -> bool;
    fn i32x4_all_true(v: V128) -> bool;
    fn i64x2_all_true(v: V128) -> bool;
    fn i8x16_bitmask(v: V128) -> u32;
    fn i16x8_bitmask(v: V128) -> u32;
    fn i32x4_bitmask(v: V128) -> u32;
    fn i64x2_bitmask(v: V128) -> u32;
    fn v128_any_true(v: V128) -> bool;
}
