//! Times the library against the same work in plain Rust, by its own and by dense passes, against a transform in
//! doubles, and against libjpeg-turbo's.
mod check;
mod dense;
mod doubles;
mod element;
mod exact;
mod floats;
mod inputs;
mod instructions;
mod jobs;
mod jpeg;
mod orientations;
mod plain;
mod quantization;
mod rounding;
mod sheets;
mod sides;
mod tables;
mod timing;

use check::DISTANCE;
use inputs::{Given, BLOCKS, SAMPLE_BITS};
use jobs::{LIBRARY, PLAIN};
use std::time::Duration;
use std::{env, process};
use weld_dct::BLOCKS_LIMIT;

fn main() {
    let arguments: Vec<String> = env::args().skip(1).collect();
    let words: Vec<&str> = arguments.iter().map(String::as_str).collect();
    let outcome = match words[..] {
        [] => run(8).and_then(|()| tables::print_instructions()),
        ["--quick"] => run(1),
        ["--passes", side, count] => run_passes(side, count),
        _ => stop(2, "the only argument is --quick"),
    };
    if let Err(what) = outcome {
        stop(1, &what);
    }
}

fn stop(code: i32, what: &str) -> ! {
    eprintln!("bench: {what}");
    process::exit(code)
}

/// Checks and times, in about one and a half times so many seconds.
fn run(seconds: u64) -> Result<(), String> {
    let (given, small) = (Given::new(SAMPLE_BITS)?, Given::new(8)?);
    check::exact(&given)?;
    check::doubles(&given)?;
    check::jpeg(&small)?;
    println!("{BLOCKS} blocks, in turn random and smooth, of {SAMPLE_BITS}-bit samples; release, opt-level 3, baseline x86-64.");
    println!("Checked first: plain Rust and the dense passes equal the library to the number, and doubles are within");
    println!("{DISTANCE} of its coefficients at 26. {}", about_jpeg());
    let mut sides = sides::all(&given, &small);
    let (times, rounds) = timing::take(&mut sides, Duration::from_secs(seconds));
    tables::print_times(&times, rounds);
    tables::print_ratios(&times);
    tables::print_growth(
        &given.blocks[..BLOCKS_LIMIT],
        Duration::from_millis(500 * seconds),
    );
    Ok(())
}

fn about_jpeg() -> &'static str {
    if jpeg::versions().is_empty() {
        return "libjpeg-turbo is left out: its static library is not in the usual place\n(Debian: libjpeg62-turbo-dev).";
    }
    "libjpeg-turbo has 8-bit samples, in i16, and is within 1 of them."
}

/// What `instructions` counts.
fn run_passes(side: &str, count: &str) -> Result<(), String> {
    let given = Given::new(SAMPLE_BITS)?;
    let count = count.parse().map_err(|_| "no count of passes")?;
    let mut sides = LIBRARY.sides(&given);
    sides.extend(PLAIN.sides(&given));
    timing::repeat(&mut sides, side, count)
}
