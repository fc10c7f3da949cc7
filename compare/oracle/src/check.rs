//! The Rust in the place of the program `direct`: it answers requests, or checks records.

use crate::records::{RECORD, Record};
use crate::table;
use crate::wire::{NO_FUNCTION, REQUEST, Request, answer_bytes};
use std::collections::BTreeMap;
use std::io::{self, Read, Write};

fn input() -> io::Result<Vec<u8>> {
    let mut bytes = Vec::new();
    io::stdin().lock().read_to_end(&mut bytes)?;
    Ok(bytes)
}

/// Answers the requests of standard input.
pub fn answer() -> io::Result<()> {
    let mut output = Vec::new();
    for request in input()?.chunks(REQUEST) {
        match request.try_into() {
            Ok(whole) => output.extend(table::answer(&Request::from_bytes(whole))),
            Err(_) => output.extend(answer_bytes(Err(NO_FUNCTION), &[])),
        }
    }
    io::stdout().lock().write_all(&output)
}

/// Checks the records of standard input, prints a line for each set, and tells whether none differed. Those that differ are named on
/// standard error by their place among the records.
pub fn check() -> io::Result<bool> {
    let mut sets: BTreeMap<u8, (usize, usize)> = BTreeMap::new();
    for (place, bytes) in input()?.chunks(RECORD).enumerate() {
        let record = Record::from_bytes(bytes.try_into().map_err(|_| io::Error::other("a record cut short"))?);
        let (rows, differ) = sets.entry(record.set).or_default();
        *rows += 1;
        if !record.agrees(&table::answer(&record.request)) {
            *differ += 1;
            eprintln!("record {place}: {}", table::name(record.request.function));
        }
    }
    sets.iter().for_each(|(set, (rows, differ))| println!("set {set} rows {rows} differ {differ}"));
    Ok(sets.values().all(|(_, differ)| *differ == 0))
}
