//! The port's answers, as the oracle gives the Rust's.

use crate::table::{self, Entry, Shape};
use crate::wire::{ACCESS_REFUSED, Answer, PACKED, Request, answer_bytes, set_shortfall};
use crate::{packed, table::Access};
use std::sync::OnceLock;

fn packed_entry(name: &str) -> &'static Entry {
    static FORMS: OnceLock<Vec<Entry>> = OnceLock::new();
    let forms = FORMS.get_or_init(packed::entries);
    forms.iter().find(|entry| entry.name == name).expect("a packed form for each name that has one")
}

/// The call of a function or packed form.
pub fn entry(number: u16) -> &'static Entry {
    let entry = table::entry(number).expect("a function");
    if number < PACKED { entry } else { packed_entry(entry.name) }
}

/// The shortfall of a refused access, by the library's own function.
fn shortfall(request: &Request, access: Access, memory: &[u8]) -> u64 {
    let offset = if access.at { 0 } else { request.offset };
    gatulefo::shortfall(memory, request.pointer, offset, access.bytes as usize)
}

/// The answer of a function to a request that the generator made.
pub fn answer(entry: &Entry, request: &Request) -> Answer {
    let mut memory = request.memory;
    let lent = &mut memory[..usize::from(request.length)];
    let result = (entry.call)(request, lent);
    let Shape::Memory(access) = entry.shape else {
        return answer_bytes(result, &[]);
    };
    let mut answer = answer_bytes(result, lent);
    if let Err(ACCESS_REFUSED) = result {
        set_shortfall(&mut answer, shortfall(request, access, lent));
    }
    answer
}
