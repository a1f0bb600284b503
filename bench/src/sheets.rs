//! The library's sheet and sheet_range. After a sheet's own check nothing is checked again: the blocks go by way of the
//! passes of forward and the sums of round.
use crate::exact::{first, is_coefficient, is_sample, Passes};
use crate::floats::float;
use crate::inputs::{Elements, Samples};
use crate::plain::ByClass;
use crate::rounding::Width;
use std::array::from_fn;
use weld_dct::{sheet_words, Range, Refusal, Transformed, BLOCKS_LIMIT, PLACES};

const PAYLOAD: u32 = (1 << 28) - 1;

/// A word's payload as a value: two's complement in 28 bits.
#[inline(always)]
fn value(word: u32) -> i32 {
    ((word << 4) as i32) >> 4
}

/// What a sheet has to be.
trait Format {
    /// The kind of its head.
    const HEAD: u32;

    /// The kind of the words of its blocks.
    const BODY: u32;

    /// Whether such a word may hold this value.
    fn allows(value: i32) -> bool;

    /// Why the sheet is refused if the one at this index may not.
    fn refusal(index: usize) -> Refusal;
}

struct SampleSheet;

impl Format for SampleSheet {
    const HEAD: u32 = 1;
    const BODY: u32 = 2;

    #[inline(always)]
    fn allows(value: i32) -> bool {
        is_sample(value)
    }

    fn refusal(index: usize) -> Refusal {
        Refusal::Sample(index)
    }
}

struct CoefficientSheet;

impl Format for CoefficientSheet {
    const HEAD: u32 = 4;
    const BODY: u32 = 3;

    #[inline(always)]
    fn allows(value: i32) -> bool {
        is_coefficient(value)
    }

    fn refusal(index: usize) -> Refusal {
        Refusal::Coefficient(index)
    }
}

/// The blocks of a sheet that begins with a head of sizes that are allowed, and has as many words as these ask for.
fn blocks_of<F: Format>(words: &[u32]) -> Result<usize, Refusal> {
    let head = *words.first().ok_or(Refusal::Head)?;
    let blocks = ((head & PAYLOAD) >> 14) as usize * (head & 0x3FFF) as usize;
    if head >> 28 != F::HEAD || !(1..=BLOCKS_LIMIT).contains(&blocks) {
        return Err(Refusal::Head);
    }
    if words.len() != sheet_words(blocks) {
        return Err(Refusal::Words(words.len()));
    }
    Ok(blocks)
}

/// Why a sheet's words after its head are refused.
fn check_words<F: Format>(words: &[u32], blocks: usize) -> Result<(), Refusal> {
    let last = words.len() - 1;
    let faulty = |word: &u32| (word >> 28 != F::BODY) | !F::allows(value(*word));
    if let Some(i) = first(&words[1..last], faulty).map(|i| i + 1) {
        let kind = words[i] >> 28;
        return Err(if kind == F::BODY {
            F::refusal(i)
        } else {
            Refusal::Words(i)
        });
    }
    match words[last] {
        end if end >> 28 != 15 => Err(Refusal::Words(last)),
        end if (end & PAYLOAD) as usize != blocks => Err(Refusal::End(last)),
        _ => Ok(()),
    }
}

/// The coefficient sheet of a sample sheet at the width b, the words written, and the sums of samples and of first
/// coefficients. The samples of a block are summed in 32 bits, of which the compiler adds several at a time.
pub fn sheet(
    words: &[u32],
    b: u32,
    scratch: &mut [i32],
    output: &mut [u32],
) -> Result<Transformed, Refusal> {
    let width = Width::of(b)?;
    let blocks = blocks_of::<SampleSheet>(words)?;
    let size = words.len();
    let scratch: &mut Elements = scratch.try_into().map_err(|_| Refusal::Lengths)?;
    let output = output.get_mut(..size).ok_or(Refusal::Lengths)?;
    check_words::<SampleSheet>(words, blocks)?;
    let (body, made) = (&words[1..size - 1], &mut output[1..size - 1]);
    let (mut sample_sum, mut first_sum) = (0, 0);
    for (block, stored) in body.chunks_exact(PLACES).zip(made.chunks_exact_mut(PLACES)) {
        let samples: Samples = from_fn(|n| value(block[n]));
        ByClass::transform(&samples, scratch);
        let mut coefficients = [0; PLACES];
        width.fill(scratch, &mut coefficients);
        for (word, y) in stored.iter_mut().zip(coefficients) {
            *word = 3 << 28 | y as u32 & PAYLOAD;
        }
        sample_sum += i64::from(samples.iter().sum::<i32>());
        first_sum += i64::from(coefficients[0]);
    }
    output[0] = 4 << 28 | words[0] & PAYLOAD;
    output[size - 1] = words[size - 1];
    Ok(Transformed {
        words: size,
        sample_sum,
        first_sum,
    })
}

/// The lowest and the highest float of a coefficient sheet. Floats are in the order of their coefficients, so that only
/// these two are made.
pub fn sheet_range(words: &[u32]) -> Result<Range, Refusal> {
    let blocks = blocks_of::<CoefficientSheet>(words)?;
    check_words::<CoefficientSheet>(words, blocks)?;
    let (mut lowest, mut highest) = (i32::MAX, i32::MIN);
    for word in &words[1..words.len() - 1] {
        let y = value(*word);
        (lowest, highest) = (lowest.min(y), highest.max(y));
    }
    Ok(Range {
        lowest: float(lowest),
        highest: float(highest),
    })
}
