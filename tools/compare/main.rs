//! Feeds random hour files to two programs and compares what they print and how they end.
//!
//! Build: rustc -O --edition 2024 tools/compare/main.rs -o /tmp/compare
//! Run:   compare PROGRAM_A PROGRAM_B SEED COUNT [FIRST]
//!
//! Files FIRST, FIRST + 1, ... of the seed are made, FIRST being 0 if not given; one in three is not damaged.
//! A program is started anew for each file. Written as `batch:PATH` it is started once, with `--batch`, and fed as
//! the head of reference/main.rs says. The first difference is printed, its file kept, and the exit status is 1.

mod damage;
mod hours;

use std::collections::BTreeMap;
use std::io::{self, Read, Write};
use std::process::{Child, Command, ExitCode, Stdio};

/// The rows that a file can bring about, by docs/FILE_FORMAT.md.
const ROWS: [u32; 12] = [3, 4, 5, 7, 8, 9, 10, 11, 12, 15, 16, 19];

/// What is compared. Of standard error only whether there is any.
#[derive(PartialEq)]
struct Outcome {
    print: Vec<u8>,
    status: Option<i32>,
    says_something: bool,
}

impl Outcome {
    /// A statement or a fault with what belongs to it. Two programs that break down alike are not in order.
    fn is_in_order(&self) -> bool {
        let faulty = layer_and_row(&self.print).is_some();
        let begins_well = faulty || self.print.starts_with(b"hour=");
        begins_well && self.status == Some(i32::from(faulty)) && self.says_something == faulty
    }
}

struct Program {
    path: String,
    /// The running program, if it takes all files in one run.
    batch: Option<Child>,
}

impl Program {
    fn new(written: &str) -> io::Result<Program> {
        let Some(path) = written.strip_prefix("batch:") else {
            return Ok(Program { path: written.to_string(), batch: None });
        };
        let child = Command::new(path).arg("--batch").stdin(Stdio::piped()).stdout(Stdio::piped()).spawn()?;
        Ok(Program { path: path.to_string(), batch: Some(child) })
    }

    /// Hands the file over. The program works on it while the other one gets it too.
    fn start(&mut self, file: &[u8]) -> io::Result<Option<Child>> {
        if let Some(input) = self.batch.as_mut().and_then(|child| child.stdin.as_mut()) {
            input.write_all(&[&(file.len() as u32).to_le_bytes(), file].concat())?;
            input.flush()?;
            return Ok(None);
        }
        let mut command = Command::new(&self.path);
        let mut child = command.stdin(Stdio::piped()).stdout(Stdio::piped()).stderr(Stdio::piped()).spawn()?;
        // A program may end without reading an oversized file to its end.
        let fed = child.stdin.take().map_or(Ok(()), |mut input| input.write_all(file));
        fed.or_else(|error| if error.kind() == io::ErrorKind::BrokenPipe { Ok(()) } else { Err(error) })?;
        Ok(Some(child))
    }

    fn finish(&mut self, started: Option<Child>) -> io::Result<Outcome> {
        if let Some(child) = started {
            let output = child.wait_with_output()?;
            let says_something = !output.stderr.is_empty();
            return Ok(Outcome { print: output.stdout, status: output.status.code(), says_something });
        }
        let output = self.batch.as_mut().and_then(|child| child.stdout.as_mut()).expect("a batch has its output");
        // A program that breaks down is a difference to be shown.
        let Ok(print) = framed_print(output) else {
            return Ok(Outcome { print: Vec::new(), status: None, says_something: true });
        };
        let faulty = print.starts_with(b"fault=");
        Ok(Outcome { print, status: Some(i32::from(faulty)), says_something: faulty })
    }
}

fn framed_print(output: &mut impl Read) -> io::Result<Vec<u8>> {
    let mut length = [0; 4];
    output.read_exact(&mut length)?;
    let mut print = vec![0; u32::from_le_bytes(length) as usize];
    output.read_exact(&mut print)?;
    Ok(print)
}

impl Drop for Program {
    fn drop(&mut self) {
        if let Some(mut child) = self.batch.take() {
            drop(child.stdin.take());
            let _ = child.wait();
        }
    }
}

/// File number `file` of a seed, and how it was made.
fn make_file(seed: u64, file: u64) -> (&'static str, Vec<u8>) {
    let mut dice = hours::Dice::new(seed, file);
    if file.is_multiple_of(3) {
        return ("not damaged", hours::any_hour(&mut dice).text());
    }
    let (name, make) = damage::DAMAGES[(file - file / 3) as usize % damage::DAMAGES.len()];
    (name, make(&mut dice))
}

/// The layer and row of a fault; none for a statement.
fn layer_and_row(print: &[u8]) -> Option<(String, u32)> {
    let print = String::from_utf8_lossy(print);
    let mut fields = print.trim_end().strip_prefix("fault=")?.split(',').skip(1);
    Some((fields.next()?.to_string(), fields.next()?.parse().ok()?))
}

fn report(program: &Program, outcome: &Outcome) {
    let Outcome { print, status, says_something } = outcome;
    println!("{}: exit status {status:?}, standard error in use: {says_something}", program.path);
    println!("{}", String::from_utf8_lossy(print));
}

fn compare(arguments: &[String]) -> io::Result<ExitCode> {
    let number =
        |place: usize| arguments.get(place).map_or(Ok(0), |text| text.parse::<u64>()).map_err(io::Error::other);
    let [path_a, path_b, _, _, ..] = arguments else {
        return Err(io::Error::other("usage: compare PROGRAM_A PROGRAM_B SEED COUNT [FIRST]"));
    };
    let (seed, count, first) = (number(2)?, number(3)?, number(4)?);
    let (mut a, mut b) = (Program::new(path_a)?, Program::new(path_b)?);
    let mut statements = 0;
    let mut faults = BTreeMap::new();
    for file in first..first + count {
        let (name, text) = make_file(seed, file);
        let (started_a, started_b) = (a.start(&text)?, b.start(&text)?);
        let (outcome_a, outcome_b) = (a.finish(started_a)?, b.finish(started_b)?);
        if outcome_a != outcome_b || !outcome_a.is_in_order() {
            let kept = std::env::temp_dir().join(format!("compare-{seed}-{file}.hour"));
            std::fs::write(&kept, &text)?;
            println!("DIFFERENCE: seed {seed}, file {file} ({name}), {} bytes, kept as {}", text.len(), kept.display());
            report(&a, &outcome_a);
            report(&b, &outcome_b);
            return Ok(ExitCode::FAILURE);
        }
        match layer_and_row(&outcome_a.print) {
            None => statements += 1,
            Some((layer, row)) => *faults.entry((row, layer)).or_insert(0) += 1,
        }
    }
    println!("seed {seed}: {count} files, no difference");
    println!("{statements} statements, {} faults", faults.values().sum::<u64>());
    for ((row, layer), times) in &faults {
        println!("  row {row:2} {layer}: {times}");
    }
    let unmet: Vec<u32> = ROWS.into_iter().filter(|row| !faults.keys().any(|(met, _)| met == row)).collect();
    println!("rows not met: {}", if unmet.is_empty() { "none".to_string() } else { format!("{unmet:?}") });
    Ok(ExitCode::SUCCESS)
}

fn main() -> ExitCode {
    let arguments: Vec<String> = std::env::args().skip(1).collect();
    compare(&arguments).unwrap_or_else(|trouble| {
        eprintln!("Nothing could be compared: {trouble}.");
        ExitCode::from(2)
    })
}
