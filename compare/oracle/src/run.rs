//! Runs the program `direct` and the Rust over the same requests and compares every byte of the answers.

use crate::wire::{ANSWER, Answer, NO_FUNCTION, REQUEST, Request, answer_bytes};
use crate::{generate, table};
use std::io::{self, Read, Write};
use std::process::{Command, Stdio};
use std::sync::Mutex;
use std::sync::atomic::{AtomicUsize, Ordering};
use std::thread;

/// Requests that one run of the program is given, unless another number is named.
pub const BATCH: usize = 65_536;
/// Differences that are printed in full for each function.
const SHOWN: usize = 3;

/// The other side: the program, and how many requests one run of it is given.
#[derive(Clone, Copy)]
pub struct Direct<'a> {
    pub program: &'a str,
    pub batch: usize,
}

/// What became of the requests of one function.
struct Tally {
    name: String,
    compared: usize,
    different: usize,
    shown: Vec<String>,
}

impl Tally {
    fn new(name: String) -> Self {
        Self { name, compared: 0, different: 0, shown: Vec::new() }
    }

    fn differs(&mut self, text: impl FnOnce() -> String) {
        self.different += 1;
        if self.shown.len() < SHOWN {
            self.shown.push(text());
        }
    }

    fn compare(&mut self, request: &[u8], expected: &Answer, given: &[u8]) {
        self.compared += 1;
        if given != expected {
            self.differs(|| format!("request {}\n   rust {}\n direct {}", hex(request), hex(expected), hex(given)));
        }
    }
}

fn hex(bytes: &[u8]) -> String {
    bytes.iter().map(|byte| format!("{byte:02x}")).collect()
}

/// Gives the program `input` through a pipe, from a thread of its own, and reads what it writes until the end.
fn give(program: &str, input: &[u8]) -> io::Result<Vec<u8>> {
    let mut child = Command::new(program).stdin(Stdio::piped()).stdout(Stdio::piped()).spawn()?;
    let mut stdin = child.stdin.take().expect("a pipe");
    let mut stdout = child.stdout.take().expect("a pipe");
    let mut output = Vec::new();
    thread::scope(|scope| {
        // A program that ends early breaks the pipe; its answers then fall short, and that is reported.
        scope.spawn(move || stdin.write_all(input).is_ok());
        stdout.read_to_end(&mut output)
    })?;
    child.wait()?;
    Ok(output)
}

/// Compares the answers to a batch; a missing answer is a difference, and so are bytes behind the last.
fn compare_batch(tally: &mut Tally, program: &str, requests: &[[u8; REQUEST]]) -> io::Result<()> {
    let given = give(program, requests.as_flattened())?;
    for (place, request) in requests.iter().enumerate() {
        let from = (place * ANSWER).min(given.len());
        let to = (from + ANSWER).min(given.len());
        let expected = table::answer(&Request::from_bytes(request));
        tally.compare(request, &expected, &given[from..to]);
    }
    if given.len() > requests.len() * ANSWER {
        tally.differs(|| format!("{} bytes behind the last answer", given.len() - requests.len() * ANSWER));
    }
    Ok(())
}

fn compare_all(name: String, direct: Direct, requests: &[[u8; REQUEST]]) -> io::Result<Tally> {
    let mut tally = Tally::new(name);
    for batch in requests.chunks(direct.batch) {
        compare_batch(&mut tally, direct.program, batch)?;
    }
    Ok(tally)
}

/// A request, and behind it one that is cut short after every number of bytes.
fn compare_cut_short(program: &str) -> io::Result<Tally> {
    let mut tally = Tally::new("requests cut short".to_string());
    for cut in 0..REQUEST {
        let input = [[0; REQUEST].as_slice(), &[1; REQUEST][..cut]].concat();
        let first = table::answer(&Request::zero(0));
        let second = answer_bytes(Err(NO_FUNCTION), &[]);
        let expected = [first.as_slice(), &second[..if cut == 0 { 0 } else { ANSWER }]].concat();
        let given = give(program, &input)?;
        tally.compared += 1;
        if given != expected {
            tally.differs(|| format!("cut after {cut} bytes\n   rust {}\n direct {}", hex(&expected), hex(&given)));
        }
    }
    Ok(tally)
}

/// One part of the work: a function, the numbers that name none, or the requests cut short.
fn part(place: usize, numbers: &[u16], direct: Direct) -> io::Result<Tally> {
    match numbers.get(place) {
        Some(number) => {
            let shape = table::entry(*number).expect("a function").shape;
            compare_all(table::name(*number), direct, &generate::function(*number, shape).requests)
        }
        None if place == numbers.len() => compare_all("no such function".to_string(), direct, &generate::refused().requests),
        None => compare_cut_short(direct.program),
    }
}

/// Takes part after part until none is left.
fn work(next: &AtomicUsize, numbers: &[u16], direct: Direct, tallies: &Mutex<Vec<(usize, Tally)>>) -> io::Result<()> {
    loop {
        let place = next.fetch_add(1, Ordering::Relaxed);
        if place >= numbers.len() + 2 {
            return Ok(());
        }
        let tally = part(place, numbers, direct)?;
        tallies.lock().expect("no thread panicked").push((place, tally));
    }
}

/// Compares everything and prints a line for each function; tells whether no answer differed.
pub fn run(direct: Direct) -> io::Result<bool> {
    let numbers = table::numbers();
    let (next, tallies) = (AtomicUsize::new(0), Mutex::new(Vec::new()));
    thread::scope(|scope| {
        let threads = thread::available_parallelism().map_or(1, usize::from);
        let workers: Vec<_> = (0..threads).map(|_| scope.spawn(|| work(&next, &numbers, direct, &tallies))).collect();
        workers.into_iter().try_for_each(|worker| worker.join().expect("no thread panicked"))
    })?;
    let mut tallies = tallies.into_inner().expect("no thread panicked");
    tallies.sort_by_key(|(place, _)| *place);
    for (_, tally) in &tallies {
        println!("{:40} {:8} compared {:8} differences", tally.name, tally.compared, tally.different);
        tally.shown.iter().for_each(|text| println!("{text}"));
    }
    let compared: usize = tallies.iter().map(|(_, tally)| tally.compared).sum();
    let different: usize = tallies.iter().map(|(_, tally)| tally.different).sum();
    println!("{compared} compared, {different} differences");
    Ok(different == 0)
}
