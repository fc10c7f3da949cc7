//! Times of each operation, through the crate and as simd.rs has it. An operation is called as an interpreter's handler calls it: the operands stand in memory, the
//! handler is reached by a pointer, and the result is written to memory. The handler is one source, compiled once against simd.rs and once against the crate.

use crate::port;
use crate::wire::Request;
use oracle::{generate, table, wire};
use std::hint::black_box;
use std::time::{Duration, Instant};

/// Requests that a round goes through, and rounds of which the fastest counts.
const REQUESTS: usize = 64;
const TURNS: usize = 64;
const ROUNDS: usize = 400;

fn once(round: &mut dyn FnMut()) -> Duration {
    let start = Instant::now();
    round();
    start.elapsed()
}

/// The times of one call of each in nanoseconds: the fastest of some rounds, taken by turns, so that what else the machine does meets both.
fn fastest(rust: &mut dyn FnMut(), port: &mut dyn FnMut()) -> (f64, f64) {
    let mut best = (Duration::MAX, Duration::MAX);
    for _ in 0..ROUNDS {
        best = (best.0.min(once(rust)), best.1.min(once(port)));
    }
    let one = |time: Duration| time.as_nanos() as f64 / (REQUESTS * TURNS) as f64;
    (one(best.0), one(best.1))
}

/// Requests that are not refused, as both sides have them.
fn requests(number: u16) -> (Vec<wire::Request>, Vec<Request>) {
    let entry = table::entry(number).expect("a function");
    let made = generate::function(number, entry.shape).requests;
    let accepted = made.iter().rev().filter(|bytes| table::answer(&wire::Request::from_bytes(bytes))[0] == 0).take(REQUESTS);
    accepted.map(|bytes| (wire::Request::from_bytes(bytes), Request::from_bytes(bytes))).unzip()
}

/// A round of calls.
macro_rules! round {
    ($call:expr, $requests:expr) => {{
        let call = black_box($call);
        let mut memories: Vec<_> = $requests.iter().map(|request| request.memory[..usize::from(request.length)].to_vec()).collect();
        move || {
            for _ in 0..TURNS {
                for (request, memory) in $requests.iter().zip(&mut memories) {
                    let _ = black_box(&call(request, memory));
                }
            }
        }
    }};
}

/// A line for each operation: its name, the nanoseconds of the Rust's, those of the linked one.
pub fn run() -> bool {
    for number in table::numbers() {
        let requests = requests(number);
        let mut rust = round!(table::entry(number).expect("a function").call, requests.0);
        let mut port = round!(port::entry(number).call, requests.1);
        let (rust, port) = fastest(&mut rust, &mut port);
        println!("{}\t{rust:.2}\t{port:.2}", table::name(number));
    }
    true
}
