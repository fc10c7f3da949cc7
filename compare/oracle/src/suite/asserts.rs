//! The rows of asserts.tsv: those of operations that are carried over become records, the others are counted.

use super::{bits, bytes, place, result, vector};
use crate::records::Record;
use crate::table::{self, Access, Shape};
use crate::wire::{MEMORY, PACKED, Request, set_shortfall};
use std::collections::BTreeMap;

/// What the file gives.
pub struct Asserts {
    pub rows: usize,
    /// Set 1: every row of an operation that is carried over.
    pub records: Vec<Record>,
    /// Set 3: the rows of set 1 whose operation has a packed form, through that form.
    pub packed: Vec<Record>,
    /// Set 4: the loads and stores of set 1 through the `_at` forms.
    pub at: Vec<Record>,
    pub left_out: BTreeMap<String, usize>,
}

/// The function of an instruction, and its `_at` form.
#[derive(Default, Clone, Copy)]
struct Functions {
    plain: Option<u16>,
    at: Option<u16>,
}

fn functions() -> BTreeMap<u32, Functions> {
    let mut functions: BTreeMap<u32, Functions> = BTreeMap::new();
    for (number, listed) in table::listed().iter().enumerate().filter(|(_, listed)| listed.carried) {
        let Some(opcode) = listed.opcode else { continue };
        let form = functions.entry(opcode).or_default();
        match listed.name.ends_with("_at") {
            true => form.at = Some(number as u16),
            false => form.plain = Some(number as u16),
        }
    }
    functions
}

/// The operands that are not memory.
fn request(number: u16, shape: Shape, columns: &[&str]) -> Request {
    let scalar = columns[8].split_once(':').map_or(0, |(_, hex)| bits(hex));
    let mut request = Request::zero(number);
    request.lane = columns[3].parse().unwrap_or(0);
    request.a = vector(columns[5]);
    request.b = vector(columns[6]);
    request.c = vector(if matches!(shape, Shape::Shuffle) { columns[4] } else { columns[7] });
    match shape {
        Shape::Shift(_) => request.count = scalar as u32,
        _ => request.scalar = scalar,
    }
    request
}

/// Sets the memory and the place, and the memory that is expected afterwards. A load finds the row's bytes at its place, a store
/// leaves them there. The shortfall of a trap is that of the suite's own access.
fn set_memory(record: &mut Record, access: Access, columns: &[&str]) -> Option<()> {
    let number = |column: usize| columns[column].parse::<u64>().expect("a number");
    assert_eq!(number(12), 65_536);
    if columns[9] == "trap" {
        set_shortfall(&mut record.expected, number(10) + number(11) + access.bytes - number(12));
    }
    let (pointer, offset) = place::place(number(10), number(11), access.bytes)?;
    (record.request.pointer, record.request.offset) = (pointer, offset);
    record.request.length = MEMORY as u8;
    let mut before = place::filled();
    let mut after = before;
    if columns[13] != "-" {
        let bytes = bytes(columns[13]);
        assert_eq!(bytes.len() as u64, access.bytes);
        let from = (pointer + offset) as usize;
        after[from..from + bytes.len()].copy_from_slice(&bytes);
        if columns[9] != "-" {
            before = after;
        }
    }
    record.request.memory = before;
    record.expected[32..].copy_from_slice(&after);
    Some(())
}

/// The record of a row. Of the results that a relaxed instruction's row allows it has the one that the Rust gives, or the first where that is none of them.
fn record(number: u16, columns: &[&str]) -> Option<Record> {
    let allowed: Vec<Record> = columns[9].split('|').map(|result| record_with(number, columns, result)).collect::<Option<_>>()?;
    let given = allowed.iter().find(|record| record.agrees(&table::answer(&record.request)));
    given.or(allowed.first()).copied()
}

/// The record of a row with one of its results.
fn record_with(number: u16, columns: &[&str], result: &str) -> Option<Record> {
    let entry = table::entry(number).expect("a function");
    let (expected, mask) = result::expected(result, entry.name.ends_with("_true"));
    let mut record = Record { set: 1, request: request(number, entry.shape, columns), expected, mask };
    if let Shape::Memory(access) = entry.shape {
        set_memory(&mut record, access, columns)?;
    }
    Some(record)
}

/// The record through the packed form.
fn through_packed(record: &Record) -> Option<Record> {
    let number = record.request.function + PACKED;
    table::entry(number)?;
    Some(Record { set: 3, request: Request { function: number, ..record.request }, ..*record })
}

/// The record through the `_at` form: its address is the sum of pointer and offset.
fn through_at(record: &Record, at: u16) -> Record {
    let address = record.request.pointer + record.request.offset;
    Record { set: 4, request: Request { function: at, pointer: address, offset: 0, ..record.request }, ..*record }
}

/// Why an instruction without a function is left out.
fn reason(instruction: &str) -> String {
    match instruction {
        "v128.const" => "v128.const: simd.rs has no function for it".to_string(),
        relaxed if relaxed.contains("relaxed") => "relaxed multiply-adds and truncations: not carried over".to_string(),
        _ => "square roots: not carried over".to_string(),
    }
}

pub fn read(file: &str) -> Asserts {
    let functions = functions();
    let mut asserts = Asserts { rows: 0, records: vec![], packed: vec![], at: vec![], left_out: BTreeMap::new() };
    for line in file.lines() {
        asserts.rows += 1;
        let columns: Vec<&str> = line.split('\t').collect();
        let forms = functions.get(&columns[2].parse().expect("a number")).copied().unwrap_or_default();
        let Some(number) = forms.plain else {
            *asserts.left_out.entry(reason(columns[1])).or_default() += 1;
            continue;
        };
        let Some(record) = record(number, &columns) else {
            *asserts.left_out.entry(format!("{}: an access in the middle", columns[1])).or_default() += 1;
            continue;
        };
        asserts.packed.extend(through_packed(&record));
        asserts.at.extend(forms.at.map(|at| through_at(&record, at)));
        asserts.records.push(record);
    }
    asserts
}
