//! The parts of the comparison, taken one after the other by as many threads as there are processors.

use crate::tally::Tally;
use crate::{compare, every};
use oracle::table;
use std::sync::Mutex;
use std::sync::atomic::{AtomicUsize, Ordering};
use std::thread;
use std::time::Instant;

/// A function's requests, or every input of its lane.
#[derive(Clone, Copy)]
enum Part {
    Requests(u16, usize),
    Every(u16, usize),
}

impl Part {
    fn done(self) -> Tally {
        match self {
            Part::Requests(number, many) => compare::function(number, many),
            Part::Every(number, stride) => every::function(number, stride),
        }
    }
}

/// Of the inputs of one lane of 32 bits one in `stride`; then every function and packed form with `many` random inputs.
fn parts(many: usize, stride: usize) -> Vec<Part> {
    let numbers = table::numbers();
    let has_all = |number: &u16| every::has_all(table::entry(*number).expect("a function").shape);
    let every = numbers.iter().copied().filter(has_all).map(|number| Part::Every(number, stride));
    every.chain(numbers.iter().map(|number| Part::Requests(*number, many))).collect()
}

fn say(tally: &Tally, done: usize, all: usize, since: Instant) {
    let seconds = since.elapsed().as_secs();
    println!("{:44} {:12} compared {:6} differences   ({done} of {all}, {seconds} s)", tally.name, tally.compared, tally.different);
    tally.shown.iter().for_each(|text| println!("{text}"));
}

/// Compares everything, a line for each part as it is done; tells whether no answer differed.
pub fn run(many: usize, stride: usize) -> bool {
    let (parts, next, tallies, since) = (parts(many, stride), AtomicUsize::new(0), Mutex::new(Vec::new()), Instant::now());
    let work = || {
        while let Some(part) = parts.get(next.fetch_add(1, Ordering::Relaxed)) {
            let tally = part.done();
            let mut tallies = tallies.lock().expect("no thread panicked");
            say(&tally, tallies.len() + 1, parts.len(), since);
            tallies.push(tally);
        }
    };
    thread::scope(|scope| {
        for _ in 0..thread::available_parallelism().map_or(1, usize::from) {
            scope.spawn(work);
        }
    });
    let tallies = tallies.into_inner().expect("no thread panicked");
    let sum = |of: fn(&Tally) -> u64| tallies.iter().map(of).sum::<u64>();
    let least = tallies.iter().filter(|tally| !tally.every).map(|tally| tally.compared).min().unwrap_or(0);
    let every = tallies.iter().filter(|tally| tally.every).count();
    println!("of {every} functions of one lane of 32 bits one input in {stride}");
    println!("{} compared, at least {least} for each function and packed form, {} differences", sum(|t| t.compared), sum(|t| t.different));
    sum(|tally| tally.different) == 0
}
