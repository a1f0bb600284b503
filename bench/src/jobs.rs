//! The jobs, as the library and as plain Rust have them, behind the same pointers: none is worked into the loop that
//! times it.
use crate::dense::Dense;
use crate::inputs::{Elements, Given, Samples, STEPS};
use crate::plain::ByClass;
use crate::timing::Side;
use crate::{exact, floats, orientations, quantization, rounding, sheets};
use std::hint::black_box;
use weld_dct::{Range, Refusal, Summary, Transformed, COMPONENTS, ORIENTATIONS, PLACES, WIDTHS};

type OneWay = fn(&[i32], &mut [i32]) -> Result<(), Refusal>;
type ToFloats = fn(&[i32], &mut [f32]) -> Result<(), Refusal>;
type Summarize = fn(&[i32]) -> Result<Summary, Refusal>;
type Sheet = fn(&[u32], u32, &mut [i32], &mut [u32]) -> Result<Transformed, Refusal>;
type SheetRange = fn(&[u32]) -> Result<Range, Refusal>;

/// Round at a width, or reorient by an orientation.
pub type ByNumber = fn(&[i32], u32, &mut [i32]) -> Result<(), Refusal>;

/// Quantize, or dequantize.
pub type BySteps = fn(&[i32], &[u32], &mut [i32]) -> Result<(), Refusal>;

/// Forward and back.
#[derive(Clone, Copy)]
pub struct Ways {
    pub name: &'static str,
    pub forward: OneWay,
    pub back: OneWay,
}

/// A library's jobs.
#[derive(Clone, Copy)]
pub struct Jobs {
    pub ways: Ways,
    pub round: ByNumber,
    pub reorient: ByNumber,
    pub quantize: BySteps,
    pub dequantize: BySteps,
    pub to_floats: ToFloats,
    pub summary: Summarize,
    pub sheet: Sheet,
    pub sheet_range: SheetRange,
}

pub const LIBRARY: Jobs = Jobs {
    ways: Ways {
        name: "library",
        forward: weld_dct::forward,
        back: weld_dct::back,
    },
    round: weld_dct::round,
    reorient: weld_dct::reorient,
    quantize: weld_dct::quantize,
    dequantize: weld_dct::dequantize,
    to_floats: weld_dct::to_floats,
    summary: weld_dct::summary,
    sheet: weld_dct::sheet,
    sheet_range: weld_dct::sheet_range,
};

pub const PLAIN: Jobs = Jobs {
    ways: Ways {
        name: "plain Rust",
        forward: exact::forward::<ByClass>,
        back: exact::back::<ByClass>,
    },
    round: rounding::round,
    reorient: orientations::reorient,
    quantize: quantization::quantize,
    dequantize: quantization::dequantize,
    to_floats: floats::to_floats,
    summary: floats::summary,
    sheet: sheets::sheet,
    sheet_range: sheets::sheet_range,
};

pub const DENSE: Ways = Ways {
    name: "exact, dense",
    forward: exact::forward::<Dense>,
    back: exact::back::<Dense>,
};

impl Ways {
    /// Forward and back over all of these.
    pub fn sides(self, given: &Given) -> Vec<Side<'_>> {
        vec![
            self.side("forward", given, move || self.all_forward(&given.blocks)),
            self.side("back", given, move || self.all_back(&given.sets)),
        ]
    }

    fn side<'a>(self, job: &str, given: &Given, work: impl FnMut() + 'a) -> Side<'a> {
        Side::new(&format!("{}: {job}", self.name), given.blocks.len(), work)
    }

    fn all_forward(self, blocks: &[Samples]) {
        let mut elements = [0; COMPONENTS];
        for samples in blocks {
            let _ = black_box((self.forward)(black_box(samples), &mut elements));
            black_box(&elements);
        }
    }

    fn all_back(self, sets: &[Elements]) {
        let mut samples = [0; PLACES];
        for elements in sets {
            let _ = black_box((self.back)(black_box(elements), &mut samples));
            black_box(&samples);
        }
    }
}

/// Quantizes or dequantizes all of these.
fn all_by_steps(job: BySteps, all: &[Samples]) {
    let mut left = [0; PLACES];
    for numbers in all {
        let _ = black_box(job(black_box(numbers), black_box(&STEPS), &mut left));
        black_box(&left);
    }
}

impl Jobs {
    /// Forward, back, round at each width, reorient, quantize, dequantize, to_floats, summary, sheet at 26, and
    /// sheet_range, over all of these.
    pub fn sides(self, given: &Given) -> Vec<Side<'_>> {
        let mut sides = self.ways.sides(given);
        for b in WIDTHS {
            let work = move || self.all_rounded(&given.sets, b);
            sides.push(self.ways.side(&format!("round at {b}"), given, work));
        }
        let work = move || self.all_reoriented(&given.sets);
        sides.push(self.ways.side("reorient", given, work));
        let work = move || all_by_steps(self.quantize, &given.coefficients);
        sides.push(self.ways.side("quantize", given, work));
        let work = move || all_by_steps(self.dequantize, &given.quantized);
        sides.push(self.ways.side("dequantize", given, work));
        let work = move || self.all_floats(&given.coefficients);
        sides.push(self.ways.side("to_floats", given, work));
        let work = move || self.all_summaries(&given.coefficients);
        sides.push(self.ways.side("summary", given, work));
        let work = move || self.all_sheets(&given.sheets);
        sides.push(self.ways.side("sheet at 26", given, work));
        let work = move || self.all_ranges(&given.coefficient_sheets);
        sides.push(self.ways.side("sheet_range", given, work));
        sides
    }

    fn all_rounded(self, sets: &[Elements], b: u32) {
        let mut coefficients = [0; PLACES];
        for elements in sets {
            let _ = black_box((self.round)(black_box(elements), b, &mut coefficients));
            black_box(&coefficients);
        }
    }

    /// Every set, by one orientation after another.
    fn all_reoriented(self, sets: &[Elements]) {
        let mut output = [0; COMPONENTS];
        for (elements, o) in sets.iter().zip((0..ORIENTATIONS).cycle()) {
            let _ = black_box((self.reorient)(black_box(elements), o, &mut output));
            black_box(&output);
        }
    }

    fn all_floats(self, all: &[Samples]) {
        let mut left = [0.0; PLACES];
        for coefficients in all {
            let _ = black_box((self.to_floats)(black_box(coefficients), &mut left));
            black_box(&left);
        }
    }

    fn all_summaries(self, all: &[Samples]) {
        for coefficients in all {
            let _ = black_box((self.summary)(black_box(coefficients)));
        }
    }

    fn all_ranges(self, sheets: &[Vec<u32>]) {
        for words in sheets {
            let _ = black_box((self.sheet_range)(black_box(words)));
        }
    }

    /// Every block forward and rounded at 26.
    pub fn all_forward_and_rounded(self, blocks: &[Samples]) {
        let (mut elements, mut coefficients) = ([0; COMPONENTS], [0; PLACES]);
        for samples in blocks {
            let _ = black_box((self.ways.forward)(black_box(samples), &mut elements));
            let _ = black_box((self.round)(black_box(&elements), 26, &mut coefficients));
            black_box(&coefficients);
        }
    }

    /// Every sheet at 26.
    pub fn all_sheets(self, sheets: &[Vec<u32>]) {
        let mut scratch = [0; COMPONENTS];
        let mut output = [0; weld_dct::sheet_words(weld_dct::BLOCKS_LIMIT)];
        for words in sheets {
            let _ = black_box((self.sheet)(
                black_box(words),
                26,
                &mut scratch,
                &mut output,
            ));
            black_box(&output);
        }
    }
}
