//! The modes of the oracle; README.md beside this crate says what each is for.

use oracle::run::{self, Direct};
use oracle::{check, records, rows};
use std::io;
use std::path::Path;
use std::process::ExitCode;

fn main() -> io::Result<ExitCode> {
    let arguments: Vec<String> = std::env::args().skip(1).collect();
    let arguments: Vec<&str> = arguments.iter().map(String::as_str).collect();
    let good = match arguments.as_slice() {
        [] => check::answer().map(|()| true),
        ["check"] => check::check(),
        ["run", program] => run::run(Direct { program, batch: run::BATCH }),
        ["run", program, batch] => run::run(Direct { program, batch: batch.parse().map_err(io::Error::other)? }),
        ["records", folder, suite] => records::write_all(Path::new(folder), Path::new(suite)).map(|()| true),
        ["rows"] => rows::write(None).map(|()| true),
        ["rows", count] => rows::write(Some(count.parse().map_err(io::Error::other)?)).map(|()| true),
        _ => Err(io::Error::other("no arguments, or: check | run PROGRAM [BATCH] | records FOLDER SUITE | rows [COUNT]")),
    }?;
    Ok(if good { ExitCode::SUCCESS } else { ExitCode::FAILURE })
}
