//! Settles many hour files in one process and prints files per second, for small, typical and largest files.
//!
//! Build: rustc -O --edition 2024 tools/bench/main.rs -o /tmp/bench
//! Run:   bench [SECONDS]      time for each implementation and size, 2 if not given
//!
//! With the proved implementation beside it, and as a ratio; the crate `hourfile_c` exports `hourbill_settle`:
//!        (cd crates/hourfile_c && rt lib)
//!        rustc -O --edition 2024 --cfg hourbill -L crates/hourfile_c/out -l static=hourfile_c tools/bench/main.rs -o /tmp/bench

#![allow(unexpected_cfgs)]

#[allow(dead_code)]
#[path = "../compare/hours.rs"]
mod hours;
#[path = "../../reference/settlement/mod.rs"]
mod settlement;

use hours::{Dice, Hour, filled_up, hour_with};
use settlement::FILE_LIMIT;
use std::hint::black_box;
use std::time::{Duration, Instant};

const SEED: u64 = 8;
const FILES: usize = 64;
const ROUNDS: u32 = 8;

/// An implementation: the file in, its print out.
type Settle = fn(&[u8]) -> Vec<u8>;

type MakeFile = fn(&mut Dice) -> Vec<u8>;

/// The implementations to be measured. The first is the measure of the ratio.
/// ANOTHER IMPLEMENTATION IS ADDED HERE, behind its own cfg flag.
const IMPLEMENTATIONS: &[(&str, Settle)] = &[
    ("reference", settlement::settle),
    #[cfg(hourbill)]
    ("hourbill", hourbill::settle),
];

#[cfg(hourbill)]
mod hourbill {
    /// More than the longest print: 32 lines of seven numbers.
    const LONGEST_PRINT: usize = 8_192;

    unsafe extern "C" {
        /// Writes the print into the text and answers how many bytes it wrote.
        fn hourbill_settle(file: *const u8, file_len: usize, text: *mut u8, text_len: usize) -> u64;
    }

    pub fn settle(file: &[u8]) -> Vec<u8> {
        let mut text = vec![0; LONGEST_PRINT];
        // SAFETY: both pairs are the start and the length of a live slice, and the text is ours alone.
        let written = unsafe { hourbill_settle(file.as_ptr(), file.len(), text.as_mut_ptr(), text.len()) };
        text.truncate(written as usize);
        text
    }
}

/// Four assets; twenty assets; all 64 assets in a file filled up to the size limit.
const SIZES: [(&str, MakeFile); 3] = [
    ("small", |dice| busy_hour(dice, 4, 4).text()),
    ("typical", |dice| busy_hour(dice, 20, 8).text()),
    ("largest", |dice| {
        let hour = busy_hour(dice, 64, 32);
        filled_up(dice, hour, FILE_LIMIT)
    }),
];

fn main() {
    let seconds: f64 = std::env::args().nth(1).map_or(2.0, |text| text.parse().expect("SECONDS is a number"));
    let time_of_round = Duration::from_secs_f64(seconds / f64::from(ROUNDS));
    for (size, make) in SIZES {
        let files = sound_files(make);
        check_same_prints(&files);
        let mean_bytes = files.iter().map(Vec::len).sum::<usize>() / files.len();
        print!("{size:8} {mean_bytes:6} bytes");
        let speeds = best_speeds(&files, time_of_round);
        for ((name, _), speed) in IMPLEMENTATIONS.iter().zip(&speeds) {
            print!("  {name} {speed:9.0} files/s");
        }
        for ((name, _), speed) in IMPLEMENTATIONS.iter().zip(&speeds).skip(1) {
            print!("  {name}/{} {:.2}", IMPLEMENTATIONS[0].0, speed / speeds[0]);
        }
        println!();
    }
}

/// An hour with at least as many orders and at most as many instructions as assets.
fn busy_hour(dice: &mut Dice, assets: u32, participants: u32) -> Hour {
    loop {
        let hour = hour_with(dice, assets, participants);
        if hour.lines[hours::ORDER].len() >= assets as usize && hour.lines[hours::INSTRUCT].len() <= assets as usize {
            return hour;
        }
    }
}

/// Files that give a statement.
fn sound_files(make: MakeFile) -> Vec<Vec<u8>> {
    let files = (0..).map(|file| make(&mut Dice::new(SEED, file)));
    files.filter(|file| settlement::settle(file).starts_with(b"hour=")).take(FILES).collect()
}

fn check_same_prints(files: &[Vec<u8>]) {
    for file in files {
        for (name, settle) in IMPLEMENTATIONS {
            assert!(settle(file) == settlement::settle(file), "{name} prints something else");
        }
    }
}

/// The best of several rounds of each implementation, in files per second. The implementations take turns.
fn best_speeds(files: &[Vec<u8>], time_of_round: Duration) -> Vec<f64> {
    let mut best = vec![0.0; IMPLEMENTATIONS.len()];
    for _ in 0..ROUNDS {
        for (speed, (_, settle)) in best.iter_mut().zip(IMPLEMENTATIONS) {
            *speed = f64::max(*speed, speed_of(*settle, files, time_of_round));
        }
    }
    best
}

fn speed_of(settle: Settle, files: &[Vec<u8>], time: Duration) -> f64 {
    let start = Instant::now();
    let mut settled = 0;
    while start.elapsed() < time {
        for file in files {
            black_box(settle(black_box(file)));
        }
        settled += files.len();
    }
    settled as f64 / start.elapsed().as_secs_f64()
}
