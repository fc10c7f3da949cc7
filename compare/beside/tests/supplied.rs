//! The tests that the supplied simd.rs carries, compiled against the linked library.

use gatulefo::simd;

include!(concat!(env!("OUT_DIR"), "/tests.rs"));
