//! The comparison and the times; compare/README.md and bench/linked say what each is for.

use beside::{time, work};
use std::process::ExitCode;

fn main() -> ExitCode {
    let arguments: Vec<String> = std::env::args().skip(1).collect();
    let arguments: Vec<&str> = arguments.iter().map(String::as_str).collect();
    let good = match arguments.as_slice() {
        ["compare", many, stride] => many.parse().ok().zip(stride.parse().ok()).map(|(many, stride)| work::run(many, stride)),
        ["time"] => Some(time::run()),
        _ => None,
    };
    match good {
        Some(true) => ExitCode::SUCCESS,
        Some(false) => ExitCode::FAILURE,
        None => {
            eprintln!("beside: compare RANDOM STRIDE | time");
            ExitCode::from(2)
        }
    }
}
