//! scan MARKER TOLERANCE LENGTH PIECE < CAPTURE: what the program `scan` writes, by the library, in pieces of at most so many bytes.

use gatulefo::scan::Scan;
use std::error::Error;
use std::io::{Read, stdin};

fn main() -> Result<(), Box<dyn Error>> {
    let words: Vec<String> = std::env::args().collect();
    let [_, marker, tolerance, length, most] = words.as_slice() else { return Err("usage: scan MARKER TOLERANCE LENGTH PIECE".into()) };
    let mut window = vec![0; 20000];
    let mut scan = match Scan::start(&mut window, u32::from_str_radix(marker, 16)?, tolerance.parse()?, length.parse()?) {
        Ok(scan) => scan,
        Err(refusal) => return Ok(println!("{refusal}")),
    };
    let mut room = vec![0; most.parse()?];
    loop {
        let mut piece = match stdin().read(&mut room)? {
            0 => break,
            n => &room[..n],
        };
        while !piece.is_empty() {
            piece = &piece[scan.feed(piece)..];
            for meeting in scan.by_ref() {
                println!("position {} distances {} {}", meeting.position, meeting.first, meeting.second);
            }
        }
    }
    println!("refused {}", scan.end().err().map_or(0, |refusal| refusal.number));
    Ok(())
}
