//! Each side's results, looked at before anything is timed.
use crate::inputs::{Elements, Given, Samples, Steps, STEPS};
use crate::jobs::{ByNumber, BySteps, Jobs, Ways, DENSE, LIBRARY, PLAIN};
use crate::{doubles, jpeg};
use std::array::from_fn;
use weld_dct::{
    Range, Refusal, Summary, Transformed, COEFFICIENT_LIMIT, COMPONENTS, DEQUANTIZED_LIMIT,
    HIGHEST_SAMPLE, LOWEST_SAMPLE, MAGNITUDES_LIMIT, ORIENTATIONS, PLACES, STEP_LIMIT, WIDTHS,
};

/// How far a coefficient at 26 may lie from eight times the DCT value.
pub const DISTANCE: f64 = 0.5 + (MAGNITUDES_LIMIT / 4) as f64 / (1 << 26) as f64;

type Outcome = Result<(), String>;

/// Goes on where the condition holds.
fn expect(holds: bool, otherwise: &str) -> Outcome {
    holds.then_some(()).ok_or(otherwise.to_string())
}

/// All that forward and back return and leave for a block.
fn both_ways(ways: Ways, samples: &[i32]) -> ([Result<(), Refusal>; 2], Elements, Samples) {
    let (mut elements, mut again) = ([0; COMPONENTS], [0; PLACES]);
    let returned = [
        (ways.forward)(samples, &mut elements),
        (ways.back)(&elements, &mut again),
    ];
    (returned, elements, again)
}

/// All that round or reorient returns and leaves for a set.
fn of_set<const N: usize>(
    job: ByNumber,
    elements: &Elements,
    number: u32,
) -> (Result<(), Refusal>, [i32; N]) {
    let mut left = [0; N];
    let returned = job(elements, number, &mut left);
    (returned, left)
}

/// All that quantize or dequantize returns and leaves.
fn of_numbers(job: BySteps, numbers: &Samples, steps: &Steps) -> (Result<(), Refusal>, Samples) {
    let mut left = [0; PLACES];
    let returned = job(numbers, steps, &mut left);
    (returned, left)
}

/// All that to_floats returns and leaves, floats by their bits.
fn of_floats(jobs: Jobs, coefficients: &Samples) -> (Result<(), Refusal>, [u32; PLACES]) {
    let mut left = [f32::NAN; PLACES];
    let returned = (jobs.to_floats)(coefficients, &mut left);
    (returned, left.map(f32::to_bits))
}

/// All that summary returns, floats by their bits.
fn of_summary(jobs: Jobs, coefficients: &Samples) -> Result<(u32, Option<u32>), Refusal> {
    Ok(match (jobs.summary)(coefficients)? {
        Summary::Flat { mean } => (mean.to_bits(), None),
        Summary::Textured { mean, largest } => (mean.to_bits(), Some(largest.to_bits())),
    })
}

/// All that sheet_range returns, floats by their bits.
fn of_range(jobs: Jobs, words: &[u32]) -> Result<[u32; 2], Refusal> {
    let Range { lowest, highest } = (jobs.sheet_range)(words)?;
    Ok([lowest, highest].map(f32::to_bits))
}

/// All that the sheet job returns and leaves.
fn of_sheet(
    jobs: Jobs,
    words: &[u32],
    b: u32,
) -> (Result<Transformed, Refusal>, Elements, Vec<u32>) {
    let (mut scratch, mut output) = ([0; COMPONENTS], vec![0; words.len()]);
    let returned = (jobs.sheet)(words, b, &mut scratch, &mut output);
    (returned, scratch, output)
}

/// These numbers with another one at index i.
fn altered<T: Copy, const N: usize>(numbers: &[T; N], i: usize, to: T) -> [T; N] {
    let mut altered = *numbers;
    altered[i] = to;
    altered
}

/// A block's elements with one component altered, in a row that back reads and in one that it does not. Such a set has no
/// block, or is above the limit in a sum alone or already in a component.
fn altered_sets(elements: &Elements) -> Vec<Elements> {
    let limit = MAGNITUDES_LIMIT as i32;
    [9, COMPONENTS - 9]
        .into_iter()
        .flat_map(|i| [elements[i] + 1, limit, i32::MIN].map(|to| altered(elements, i, to)))
        .collect()
}

/// A set with every element at the limit, in one of its components in turn, of both signs.
fn set_at_limit() -> Elements {
    let limit = MAGNITUDES_LIMIT as i32;
    from_fn(|i| match (i / 8 % 8 == i % 8, i / 64 % 2) {
        (true, 0) => limit,
        (true, _) => -limit,
        _ => 0,
    })
}

/// Blocks of the lowest and of the highest sample, each alone, and in turn.
fn extreme_blocks() -> [Samples; 3] {
    [
        [LOWEST_SAMPLE; PLACES],
        [HIGHEST_SAMPLE; PLACES],
        from_fn(|n| [LOWEST_SAMPLE, HIGHEST_SAMPLE][(n / 8 + n) % 2]),
    ]
}

/// Numbers with one at a limit or beyond it, on either way, among them one that is 0 again times 8 in 32 bits.
fn altered_numbers(numbers: &Samples) -> [Samples; 6] {
    let most = DEQUANTIZED_LIMIT / 8;
    [
        COEFFICIENT_LIMIT,
        -COEFFICIENT_LIMIT - 1,
        -most,
        most + 1,
        1 << 29,
        i32::MIN,
    ]
    .map(|to| altered(numbers, 9, to))
}

/// Forward and back of others equal the library's, for every block, for extreme ones, for one out of range, for altered
/// sets and for one at the limit.
fn ways(others: Ways, given: &Given) -> Outcome {
    let differs = format!("{} differs from the library", others.name);
    let mut outside = given.blocks[0];
    outside[9] = HIGHEST_SAMPLE + 1;
    let extreme = extreme_blocks();
    for samples in given.blocks.iter().chain(&extreme).chain([&outside]) {
        expect(
            both_ways(LIBRARY.ways, samples) == both_ways(others, samples),
            &differs,
        )?;
    }
    let (altered, at_limit) = (altered_sets(&given.sets[0]), set_at_limit());
    for set in altered.iter().chain([&at_limit]) {
        let back = |ways: Ways| (ways.back)(set, &mut [0; PLACES]);
        expect(back(LIBRARY.ways) == back(others), &differs)?;
    }
    Ok(())
}

/// The library's round or reorient, and plain Rust's, are equal by each of the numbers, for every set, for altered ones
/// and for one at the limit.
fn sets<const N: usize>(
    [one, other]: [ByNumber; 2],
    numbers: impl IntoIterator<Item = u32>,
    given: &Given,
) -> Outcome {
    let (altered, at_limit) = (altered_sets(&given.sets[0]), set_at_limit());
    for number in numbers {
        for set in given.sets.iter().chain(&altered).chain([&at_limit]) {
            expect(
                of_set::<N>(one, set, number) == of_set::<N>(other, set, number),
                "plain Rust rounds or reorients otherwise than the library",
            )?;
        }
    }
    Ok(())
}

/// The library's quantize or dequantize, and plain Rust's, are equal for all of these and for altered ones, by the steps
/// of the benchmark, by the smallest and the largest ones, and by some that are out of range.
fn quantization([one, other]: [BySteps; 2], all: &[Samples]) -> Outcome {
    let lists = [
        STEPS,
        [1; PLACES],
        [STEP_LIMIT; PLACES],
        altered(&STEPS, 7, 0),
        altered(&STEPS, 7, STEP_LIMIT + 1),
    ];
    for steps in &lists {
        for numbers in all.iter().chain(&altered_numbers(&all[0])) {
            expect(
                of_numbers(one, numbers, steps) == of_numbers(other, numbers, steps),
                "plain Rust quantizes or dequantizes otherwise than the library",
            )?;
        }
    }
    Ok(())
}

/// The library's floats and summaries, and plain Rust's, are equal for all of these and for altered ones, for a flat block,
/// and for one whose others are all of one magnitude.
fn floats(all: &[Samples]) -> Outcome {
    let flat = [0; PLACES];
    let equal = from_fn(|p| if p % 3 == 0 { 8 } else { -8 });
    let altered = altered_numbers(&all[0]);
    for coefficients in all.iter().chain(&altered).chain([&flat, &equal]) {
        expect(
            of_floats(LIBRARY, coefficients) == of_floats(PLAIN, coefficients),
            "plain Rust makes other floats than the library",
        )?;
        expect(
            of_summary(LIBRARY, coefficients) == of_summary(PLAIN, coefficients),
            "plain Rust makes another summary than the library",
        )?;
    }
    Ok(())
}

/// The first of the sheets with one word altered: to one of no kind, and to another.
fn faulty(sheets: &[Vec<u32>], word: u32) -> [Vec<u32>; 2] {
    [0, word].map(|word| {
        let mut words = sheets[0].clone();
        words[7] = word;
        words
    })
}

/// The library's sheets and ranges, and plain Rust's, are equal for all sheets and for faulty ones.
fn sheets(given: &Given) -> Outcome {
    let others = faulty(&given.sheets, 2 << 28 | (HIGHEST_SAMPLE + 1) as u32);
    for b in WIDTHS {
        for words in given.sheets.iter().chain(&others) {
            expect(
                of_sheet(LIBRARY, words, b) == of_sheet(PLAIN, words, b),
                "plain Rust differs from the library in a sheet",
            )?;
        }
    }
    let beyond = (COEFFICIENT_LIMIT + 1) as u32;
    let others = faulty(&given.coefficient_sheets, 3 << 28 | beyond);
    for words in given.coefficient_sheets.iter().chain(&others) {
        expect(
            of_range(LIBRARY, words) == of_range(PLAIN, words),
            "plain Rust differs from the library in the range of a sheet",
        )?;
    }
    Ok(())
}

/// Plain Rust equals the library in all jobs, with a number that is no orientation besides, and the dense passes do in
/// theirs.
pub fn exact(given: &Given) -> Outcome {
    let both = [LIBRARY, PLAIN];
    ways(PLAIN.ways, given)?;
    ways(DENSE, given)?;
    sets::<PLACES>(both.map(|jobs| jobs.round), WIDTHS, given)?;
    sets::<COMPONENTS>(both.map(|jobs| jobs.reorient), 0..=ORIENTATIONS, given)?;
    quantization(both.map(|jobs| jobs.quantize), &given.coefficients)?;
    quantization(both.map(|jobs| jobs.dequantize), &given.quantized)?;
    floats(&given.coefficients)?;
    sheets(given)
}

/// Eight times the DCT values in doubles lie no further from the library's coefficients at 26 than these promise, and
/// give the block back.
pub fn doubles(given: &Given) -> Outcome {
    let most = DISTANCE + 1e-6;
    for (samples, made) in given.blocks.iter().zip(&given.coefficients) {
        let eighths = doubles::forward(samples);
        let near = |(x, y): (&f64, &i32)| (x - f64::from(*y)).abs() <= most;
        expect(
            eighths.iter().flatten().zip(made).all(near),
            "doubles are too far from the library's coefficients",
        )?;
        expect(
            doubles::round(&eighths)
                .iter()
                .zip(made)
                .all(|(x, y)| x.abs_diff(*y) <= 1),
            "rounded doubles are too far from them",
        )?;
        expect(
            doubles::back(&eighths) == *samples,
            "doubles do not give a block back",
        )?;
    }
    Ok(())
}

/// Every version of libjpeg-turbo's transform is within 1 of the library's coefficients at 26, for samples of 8 bits.
pub fn jpeg(given: &Given) -> Outcome {
    for (_, version) in jpeg::versions() {
        for (samples, made) in given.blocks.iter().zip(&given.coefficients) {
            let mut block = jpeg::Block(samples.map(|x| x as i16));
            jpeg::forward(version, &mut block);
            let near = |(x, y): (&i16, &i32)| i32::from(*x).abs_diff(*y) <= 1;
            expect(
                block.0.iter().zip(made).all(near),
                "libjpeg-turbo is too far from the library",
            )?;
        }
    }
    Ok(())
}
