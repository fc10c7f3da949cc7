//! The port's conversions and roundings, called directly, beside the Rust's: of lanes of 32 bits every input there is, of lanes of 64 bits at every exponent
//! those around rounding boundaries, and random ones. A line for each function; the status is 0 only when there is no difference.

mod inputs;

use oracle::{V128, simd};
use std::process::ExitCode;
use std::thread;

/// A lane's kind, as far as its NaNs go.
#[derive(Clone, Copy)]
enum Gives {
    Integers,
    F32,
    F64,
}

/// A function of both sides.
#[derive(Clone, Copy)]
pub struct Function {
    name: &'static str,
    port: unsafe extern "C" fn(&mut [u64; 4]),
    rust: fn(V128) -> V128,
    gives: Gives,
    /// The lanes that it reads: their width, and how many of them.
    pub width: u32,
    pub lanes: usize,
}

macro_rules! functions {
    ( $( $name:ident($width:literal, $lanes:literal) -> $gives:ident; )* ) => {
        unsafe extern "C" {
            $( fn $name(place: &mut [u64; 4]); )*
        }

        const FUNCTIONS: &[Function] = &[ $( Function {
            name: stringify!($name), port: $name, rust: simd::$name, gives: Gives::$gives, width: $width, lanes: $lanes,
        } ),* ];
    };
}

functions! {
    f32x4_ceil(32, 4) -> F32;
    f32x4_floor(32, 4) -> F32;
    f32x4_trunc(32, 4) -> F32;
    f32x4_nearest(32, 4) -> F32;
    f32x4_convert_i32x4_s(32, 4) -> F32;
    f32x4_convert_i32x4_u(32, 4) -> F32;
    i32x4_trunc_sat_f32x4_s(32, 4) -> Integers;
    i32x4_trunc_sat_f32x4_u(32, 4) -> Integers;
    f64x2_convert_low_i32x4_s(32, 2) -> F64;
    f64x2_convert_low_i32x4_u(32, 2) -> F64;
    f64x2_promote_low_f32x4(32, 2) -> F64;
    f64x2_ceil(64, 2) -> F64;
    f64x2_floor(64, 2) -> F64;
    f64x2_trunc(64, 2) -> F64;
    f64x2_nearest(64, 2) -> F64;
    i32x4_trunc_sat_f64x2_s_zero(64, 2) -> Integers;
    i32x4_trunc_sat_f64x2_u_zero(64, 2) -> Integers;
    f32x4_demote_f64x2_zero(64, 2) -> F32;
}

/// A result with the positive quiet NaN for every NaN of it: equal to the port's where both are NaN and the port has the one pattern (document 02, order 4).
fn with_one_nan(bits: u128, gives: Gives) -> u128 {
    let lanes = |width: u32, nan: u128, infinity: u128| {
        (0..128 / width).fold(0, |all, place| {
            let lane = bits >> (place * width) & ((1 << width) - 1);
            let size = lane & ((1 << (width - 1)) - 1);
            all | (if size > infinity { nan } else { lane }) << (place * width)
        })
    };
    match gives {
        Gives::Integers => bits,
        Gives::F32 => lanes(32, 0x7fc0_0000, 0x7f80_0000),
        Gives::F64 => lanes(64, 0x7ff8_0000_0000_0000, 0x7ff0_0000_0000_0000),
    }
}

impl Function {
    /// Whether both sides give the same for a vector.
    fn agrees(self, vector: u128) -> bool {
        let mut place = [vector as u64, (vector >> 64) as u64, 0, 0];
        unsafe { (self.port)(&mut place) };
        let port = u128::from(place[2]) | u128::from(place[3]) << 64;
        port == with_one_nan((self.rust)(vector.into()).as_u128(), self.gives)
    }

    /// Goes through a share of the inputs; how many there were, and the first vector that differs.
    fn compare(self, share: usize, shares: usize) -> (u64, Option<u128>) {
        let (mut compared, mut first) = (0, None);
        inputs::vectors(self, share, shares, |vector| {
            compared += self.lanes as u64;
            if first.is_none() && !self.agrees(vector) {
                first = Some(vector);
            }
        });
        (compared, first)
    }

    fn report(self) -> bool {
        let shares = thread::available_parallelism().map_or(1, usize::from);
        let tallies: Vec<_> = thread::scope(|scope| {
            let shares: Vec<_> = (0..shares).map(|share| scope.spawn(move || self.compare(share, shares))).collect();
            shares.into_iter().map(|share| share.join().expect("no thread panicked")).collect()
        });
        let compared: u64 = tallies.iter().map(|(compared, _)| compared).sum();
        let first = tallies.iter().find_map(|(_, first)| *first);
        let verdict = first.map_or("no difference".to_string(), |vector| format!("differs first at {:02x?}", vector.to_le_bytes()));
        println!("{:32} {compared:12} inputs, {verdict}", self.name);
        first.is_none()
    }
}

fn main() -> ExitCode {
    let named: Vec<String> = std::env::args().skip(1).collect();
    let asked = |function: &&Function| named.is_empty() || named.iter().any(|name| name == function.name);
    let good = FUNCTIONS.iter().filter(asked).fold(true, |good, function| function.report() && good);
    if good { ExitCode::SUCCESS } else { ExitCode::FAILURE }
}
