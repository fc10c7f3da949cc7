//! The records that the program `direct` checks with no Rust at hand: set, request, expected answer, and a mask of the bits that count.

use crate::generate::{self, Generator};
use crate::suite;
use crate::table::{self, Shape};
use crate::wire::{ANSWER, Answer, REQUEST, Request};
use std::collections::BTreeMap;
use std::path::Path;
use std::{fs, io};

pub const RECORD: usize = 4 + REQUEST + 2 * ANSWER;

#[derive(Clone, Copy)]
pub struct Record {
    pub set: u8,
    pub request: Request,
    pub expected: Answer,
    pub mask: Answer,
}

impl Record {
    /// A record of which every bit counts.
    pub fn exact(set: u8, request: Request, expected: Answer) -> Self {
        Self { set, request, expected, mask: [255; ANSWER] }
    }

    pub fn to_bytes(&self) -> Vec<u8> {
        [[self.set, 0, 0, 0].as_slice(), &self.request.to_bytes(), &self.expected, &self.mask].concat()
    }

    pub fn from_bytes(bytes: &[u8; RECORD]) -> Self {
        let (head, rest) = bytes.split_at(4);
        let (request, rest) = rest.split_at(REQUEST);
        let (expected, mask) = rest.split_at(ANSWER);
        Self {
            set: head[0],
            request: Request::from_bytes(request.try_into().expect("a request")),
            expected: expected.try_into().expect("an answer"),
            mask: mask.try_into().expect("a mask"),
        }
    }

    /// Whether an answer is the expected one in the bits that count.
    pub fn agrees(&self, answer: &Answer) -> bool {
        (0..ANSWER).all(|place| (answer[place] ^ self.expected[place]) & self.mask[place] == 0)
    }
}

/// How many requests are taken of a section's accepted ones, and of its requests with each refusal.
fn share(section: &str, shape: Option<Shape>) -> usize {
    match (section, shape) {
        ("edges" | "lane edges" | "shortfalls", _) => 6,
        ("zero lanes", _) => 30,
        ("numbers" | "lengths", _) => 16,
        (_, Some(Shape::Memory(_))) => 2,
        _ => 5,
    }
}

/// Places spread evenly over a list, the first and the last among them.
fn spread(places: &[usize], share: usize) -> Vec<usize> {
    match places.len() <= share {
        true => places.to_vec(),
        false => (0..share).map(|part| places[part * (places.len() - 1) / (share - 1)]).collect(),
    }
}

/// A sample of a function's requests, section by section, accepted and refused ones apart.
fn sample(generator: &Generator, shape: Option<Shape>) -> Vec<Record> {
    let mut records = Vec::new();
    for (place, section) in generator.sections.iter().enumerate() {
        let end = generator.sections.get(place + 1).map_or(generator.requests.len(), |next| next.start);
        let mut by_refusal: BTreeMap<u8, Vec<usize>> = BTreeMap::new();
        let answered = |place: usize| {
            let request = Request::from_bytes(&generator.requests[place]);
            Record::exact(0, request, table::answer(&request))
        };
        for place in section.start..end {
            by_refusal.entry(answered(place).expected[0]).or_default().push(place);
        }
        for places in by_refusal.values() {
            records.extend(spread(places, share(section.name, shape)).into_iter().map(answered));
        }
    }
    records
}

/// Set 0: a fixed list of the Rust's answers.
pub fn fixed_list() -> Vec<Record> {
    let of_number = |number: u16| {
        let shape = table::entry(number).expect("a function").shape;
        sample(&generate::function(number, shape), Some(shape))
    };
    let mut records: Vec<Record> = table::numbers().into_iter().flat_map(of_number).collect();
    records.extend(sample(&generate::refused(), None));
    records
}

fn write(folder: &Path, name: &str, records: &[Record]) -> io::Result<()> {
    let bytes: Vec<u8> = records.iter().flat_map(Record::to_bytes).collect();
    fs::write(folder.join(name), &bytes)?;
    println!("{name}: set {} rows {} bytes {}", records.first().map_or(0, |record| record.set), records.len(), bytes.len());
    Ok(())
}

/// Writes the records of every set into a folder and prints what each has and what was left out.
pub fn write_all(folder: &Path, suite_folder: &Path) -> io::Result<()> {
    fs::create_dir_all(folder)?;
    write(folder, "set0.bin", &fixed_list())?;
    let asserts = suite::asserts::read(&fs::read_to_string(suite_folder.join("asserts.tsv"))?);
    write(folder, "set1.bin", &asserts.records)?;
    let invalid = suite::invalid::read(&fs::read_to_string(suite_folder.join("invalid-lanes.tsv"))?);
    write(folder, "set2.bin", &invalid)?;
    write(folder, "set3.bin", &asserts.packed)?;
    write(folder, "set4.bin", &asserts.at)?;
    println!("rows of asserts.tsv {}, left out {}:", asserts.rows, asserts.left_out.values().sum::<usize>());
    asserts.left_out.iter().for_each(|(reason, rows)| println!("{rows:8} {reason}"));
    println!("rows of invalid-lanes.tsv {}, left out 0", invalid.len());
    Ok(())
}
