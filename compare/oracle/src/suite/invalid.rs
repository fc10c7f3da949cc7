//! The rows of invalid-lanes.tsv: the lane or index must be refused. A lane access has a place that fits, so that nothing else is
//! refused; the shuffle has the index in place 0 and zero in the others.

use super::place;
use crate::records::Record;
use crate::table::{self, Shape};
use crate::wire::{ANSWER, INDEX_REFUSED, LANE_REFUSED, MEMORY, Request};

fn record(line: &str) -> Record {
    let columns: Vec<&str> = line.split('\t').collect();
    let name = columns[0].replace('.', "_");
    let number = table::listed().iter().position(|listed| listed.name == name).expect("a function") as u16;
    let value = columns[1].parse().expect("a number");
    let mut request = Request::zero(number);
    let mut expected = [0; ANSWER];
    match table::entry(number).expect("a function").shape {
        Shape::Shuffle => (request.c[0], expected[0]) = (value, INDEX_REFUSED),
        shape => {
            (request.lane, expected[0]) = (value, LANE_REFUSED);
            if let Shape::Memory(_) = shape {
                (request.length, request.memory) = (MEMORY as u8, place::filled());
                expected[32..].copy_from_slice(&request.memory);
            }
        }
    }
    Record::exact(2, request, expected)
}

pub fn read(file: &str) -> Vec<Record> {
    file.lines().map(record).collect()
}
