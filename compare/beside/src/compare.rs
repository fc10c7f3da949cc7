//! The requests of compare/run, with as many random ones as named, answered by both.

use crate::port;
use crate::tally::{Tally, hex};
use crate::wire::{REQUEST, Request};
use oracle::{generate, table, wire};

fn compare(tally: &mut Tally, number: u16, requests: &[[u8; REQUEST]]) {
    let entry = port::entry(number);
    for bytes in requests {
        let rust = table::answer(&wire::Request::from_bytes(bytes));
        let port = port::answer(entry, &Request::from_bytes(bytes));
        tally.compare(&rust, &port, || format!("request {}\n   rust {}\n   port {}", hex(bytes), hex(&rust), hex(&port)));
    }
}

/// Compares a function or packed form.
pub fn function(number: u16, many: usize) -> Tally {
    let mut tally = Tally::new(table::name(number), false);
    let shape = table::entry(number).expect("a function").shape;
    generate::hand_on(number, shape, many, &mut |requests| compare(&mut tally, number, requests));
    tally
}
