use gatulefo::{checked, simd};

fn main() {
    let a = simd::i8x16_splat(100);
    let sum = simd::i8x16_add_sat_s(a, a);
    let loaded = checked::v128_load(&[0; 16], 1, 0);
    println!("{:032x}, {}", sum.as_u128(), loaded.unwrap_err());
}
