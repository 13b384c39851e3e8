//! The reference program: reads an hour file from standard input and prints its statement or its fault.
//!
//! Build: rustc -O --edition 2024 reference/main.rs -o /tmp/reference
//!
//! Without arguments it does what docs/FILE_FORMAT.md says of `hoursettle`. With `--batch` it settles many files
//! in one run: for each file it reads a length of four bytes (the lowest first) and the file's bytes, and
//! writes the length of the print in the same way and the print, until its input ends.

mod settlement;

use settlement::{FILE_LIMIT, settle};
use std::io::{self, ErrorKind, Read, Write};
use std::process::ExitCode;

/// The exit status if the program was called wrongly, or its input or output failed.
const TROUBLE: u8 = 2;

fn main() -> ExitCode {
    let arguments: Vec<String> = std::env::args().skip(1).collect();
    let outcome = match arguments.iter().map(String::as_str).collect::<Vec<_>>()[..] {
        [] => settle_one(),
        ["--batch"] => settle_many(),
        _ => Err(io::Error::other("the only argument known is --batch")),
    };
    outcome.unwrap_or_else(|trouble| {
        eprintln!("Nothing could be settled: {trouble}.");
        ExitCode::from(TROUBLE)
    })
}

/// Reads at most one byte past the limit, which is enough to know that a file is oversized.
fn settle_one() -> io::Result<ExitCode> {
    let mut file = Vec::new();
    io::stdin().take(FILE_LIMIT as u64 + 1).read_to_end(&mut file)?;
    let print = settle(&file);
    let mut output = io::stdout();
    output.write_all(&print)?;
    output.flush()?;
    if print.starts_with(b"fault=") {
        eprintln!("The hour file is at fault; docs/REFUSALS.md tells what the printed layer, row and subject mean.");
        return Ok(ExitCode::from(1));
    }
    Ok(ExitCode::SUCCESS)
}

fn settle_many() -> io::Result<ExitCode> {
    let mut input = io::stdin().lock();
    let mut output = io::stdout().lock();
    let mut length = [0; 4];
    loop {
        match input.read_exact(&mut length) {
            Err(end) if end.kind() == ErrorKind::UnexpectedEof => return Ok(ExitCode::SUCCESS),
            read => read?,
        }
        let mut file = vec![0; u32::from_le_bytes(length) as usize];
        input.read_exact(&mut file)?;
        let print = settle(&file);
        output.write_all(&(print.len() as u32).to_le_bytes())?;
        output.write_all(&print)?;
        output.flush()?;
    }
}
