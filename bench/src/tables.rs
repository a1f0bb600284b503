//! What is printed.
use crate::inputs::{self, Samples};
use crate::instructions;
use crate::jobs::{DENSE, LIBRARY, PLAIN};
use crate::timing::{self, best, Side, Time};
use std::time::Duration;

pub fn print_times(times: &[Time], rounds: usize) {
    println!(
        "\n{:70}{:>10}{:>10}",
        format!("Nanoseconds a block, of {rounds} rounds"),
        "best",
        "median"
    );
    for time in times {
        println!("{:70}{:10.1}{:10.1}", time.name, time.best, time.median);
    }
}

/// The best times of the library, of some jobs together, over those of another side.
pub fn print_ratios(times: &[Time]) {
    println!("\nRatios of the best times");
    let library = |job: &&str| best(times, &format!("{}: {job}", LIBRARY.ways.name));
    let print = |jobs: &[&str], other: &str, time: f64| {
        let what = format!("{}: {} / {other}", LIBRARY.ways.name, jobs.join(" + "));
        println!(
            "{what:70}{:10.2}",
            jobs.iter().map(library).sum::<f64>() / time
        );
    };
    let print_to = |jobs: &[&str], other: &str| print(jobs, other, best(times, other));
    for time in times {
        match time.name.split_once(": ") {
            Some((other, job)) if [PLAIN.ways.name, DENSE.name].contains(&other) => {
                print(&[job], &time.name, time.best);
            }
            _ => {}
        }
    }
    print(
        &["sheet at 26"],
        "(forward + round at 26)",
        library(&"forward") + library(&"round at 26"),
    );
    print_to(&["forward"], "doubles: forward");
    print_to(&["back"], "doubles: back");
    print_to(&["forward", "round at 26"], "doubles: forward and round");
    for time in times
        .iter()
        .filter(|time| time.name.starts_with("libjpeg-turbo"))
    {
        print(&["forward", "round at 26"], &time.name, time.best);
    }
}

/// The cost of a block in sheets of 1 to 128 blocks, beside that of the same blocks by forward and round.
pub fn print_growth(blocks: &[Samples], duration: Duration) {
    let sizes: Vec<usize> = (0..=7).map(|n| 1 << n).collect();
    let sheets: Vec<_> = sizes
        .iter()
        .map(|size| inputs::sheets(inputs::SAMPLES, blocks, *size))
        .collect();
    let mut sides = vec![Side::new("forward + round at 26", blocks.len(), || {
        LIBRARY.all_forward_and_rounded(blocks)
    })];
    for (size, sheets) in sizes.iter().zip(&sheets) {
        sides.push(Side::new(&size.to_string(), blocks.len(), move || {
            LIBRARY.all_sheets(sheets)
        }));
    }
    let (times, rounds) = timing::take(&mut sides, duration);
    let alone = best(&times, "forward + round at 26");
    println!(
        "\nThe library's sheets at 26, nanoseconds a block, of {rounds} rounds; the ratio is to forward + round at 26"
    );
    println!(
        "{:>30}{:>20}{:>20}{:>20}",
        "blocks in a sheet", "best", "median", "ratio of the best"
    );
    for time in &times[1..] {
        println!(
            "{:>30}{:20.1}{:20.1}{:20.2}",
            time.name,
            time.best,
            time.median,
            time.best / alone
        );
    }
}

/// Instructions a block of the library and of plain Rust, where they can be counted.
pub fn print_instructions() -> Result<(), String> {
    if !instructions::can_be_counted() {
        println!("\nInstructions are not counted: valgrind is not installed.");
        return Ok(());
    }
    let [one, other] = [LIBRARY, PLAIN].map(|jobs| jobs.ways.name);
    println!(
        "\n{:60}{one:>15}{other:>15}",
        "Instructions a block, by callgrind"
    );
    for job in [
        "forward",
        "back",
        "round at 26",
        "reorient",
        "quantize",
        "dequantize",
        "to_floats",
        "summary",
        "sheet at 26",
        "sheet_range",
    ] {
        let count = |name| instructions::of_block(&format!("{name}: {job}"));
        println!("{job:60}{:15}{:15}", count(one)?, count(other)?);
    }
    Ok(())
}
