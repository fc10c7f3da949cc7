//! The standard's published suite as records.

pub mod asserts;
pub mod invalid;
mod place;
mod result;

/// Bytes written as hex digits, byte 0 first.
fn bytes(hex: &str) -> Vec<u8> {
    let digits = |at: usize| u8::from_str_radix(&hex[at..at + 2], 16).expect("hex digits");
    (0..hex.len()).step_by(2).map(digits).collect()
}

/// A vector written as 32 hex digits, or zero where a column is not used.
fn vector(column: &str) -> [u8; 16] {
    match column {
        "-" => [0; 16],
        hex => bytes(hex).try_into().expect("sixteen bytes"),
    }
}

/// Bits written highest digit first.
fn bits(hex: &str) -> u64 {
    u64::from_str_radix(hex, 16).expect("hex digits")
}
