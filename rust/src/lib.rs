//! The exact 8 by 8 cosine transform for weld radiographs.
//!
//! Each function is safe and takes any numbers and slices of any length. It either does the whole of its work and
//! returns `Ok`, or it returns the first [`Refusal`] in the order that it names, and then every slice is as it was.
//! None of them panics, allocates or keeps state. The library behind them is proved to do what is said here; this crate
//! passes slices to it and reads its answers. docs/TRUST.md says what is not proved.
//!
//! ```
//! let mut elements = [0; weld_dct::COMPONENTS];
//! weld_dct::forward(&[1; weld_dct::PLACES], &mut elements)?;
//! let mut coefficients = [0; weld_dct::PLACES];
//! weld_dct::round(&elements, 26, &mut coefficients)?;
//! assert_eq!((elements[0], coefficients[0]), (128, 64));
//! # Ok::<(), weld_dct::Refusal>(())
//! ```
#![deny(missing_docs)]

use std::{error, fmt};

/// The places of a block, row by row: it has as many samples, elements, coefficients, quantized values and floats, and
/// as many quantization steps, which stand in zig-zag order.
pub const PLACES: usize = 64;

/// The components of a block's elements, eight for each.
pub const COMPONENTS: usize = 512;

/// The lowest sample.
pub const LOWEST_SAMPLE: i32 = -32_768;

/// The highest sample.
pub const HIGHEST_SAMPLE: i32 = 32_767;

/// What the magnitudes of an element's eight components may sum to: 128 times that of the lowest sample.
pub const MAGNITUDES_LIMIT: u32 = 4_194_304;

/// The blocks that a sheet may have.
pub const BLOCKS_LIMIT: usize = 128;

/// The widths b at which coefficients are rounded.
pub const WIDTHS: [u32; 3] = [11, 20, 26];

/// How many orientations a block has. They are 0 to 7: 0 changes nothing, 1 mirrors left and right, 2 top and bottom, 3
/// both; 4 to 7 first swap rows with columns, then do as 0 to 3.
pub const ORIENTATIONS: u32 = 8;

/// The largest quantization step; the smallest is 1.
pub const STEP_LIMIT: u32 = 1024;

/// The largest magnitude of a coefficient that is quantized or made a float.
pub const COEFFICIENT_LIMIT: i32 = 4_194_303;

/// The largest magnitude of a coefficient that [`dequantize`] gives. It is more than [`COEFFICIENT_LIMIT`] by four times
/// the largest step, which is as far as a coefficient can move on the way there and back.
pub const DEQUANTIZED_LIMIT: i32 = 4_198_399;

/// The words of a sheet of so many blocks: a head, 64 for each block, and an end word. Where that is no `usize`, which
/// no sheet comes near, it is the largest one.
///
/// ```
/// assert_eq!(weld_dct::sheet_words(12), 770);
/// ```
pub const fn sheet_words(blocks: usize) -> usize {
    PLACES.saturating_mul(blocks).saturating_add(2)
}

/// Why a call is refused.
#[derive(Debug, Clone, Copy, PartialEq, Eq, Hash)]
pub enum Refusal {
    /// A slice has another length than the function asks for.
    Lengths,
    /// The sample at this index, in a sheet the word at this index, is out of range. It is the first.
    Sample(usize),
    /// b is not one of [`WIDTHS`].
    Width,
    /// The magnitudes of the element of this number, 8u+v, sum above [`MAGNITUDES_LIMIT`]. It is the first.
    Magnitudes(usize),
    /// No block in range has these elements.
    NoBlock,
    /// A sheet has no words, or does not begin with a head of its kind whose sizes are allowed.
    Head,
    /// A sheet has this many words, and not as many as its sizes ask for. Or the word at this index, the first that has
    /// a fault and so below that count, is of another kind than its place needs.
    Words(usize),
    /// The end word, at this index, does not hold the number of blocks.
    End(usize),
    /// An orientation is not below [`ORIENTATIONS`].
    Orientation,
    /// The quantization step at this index of the list, which is in zig-zag order, is not from 1 to [`STEP_LIMIT`]. It is
    /// the first.
    Step(usize),
    /// The coefficient at this index, 8u+v, in a sheet the word at this index, is beyond [`COEFFICIENT_LIMIT`], or the
    /// one that [`dequantize`] would write there is beyond [`DEQUANTIZED_LIMIT`]. It is the first.
    Coefficient(usize),
}

/// The numbers of the answers.
mod numbers {
    pub const ACCEPTED: u32 = 0;
    pub const LENGTHS: u32 = 1;
    pub const SAMPLE: u32 = 2;
    pub const WIDTH: u32 = 3;
    pub const MAGNITUDES: u32 = 4;
    pub const NO_BLOCK: u32 = 5;
    pub const HEAD: u32 = 6;
    pub const WORDS: u32 = 7;
    pub const END: u32 = 8;
    pub const ORIENTATION: u32 = 9;
    pub const STEP: u32 = 10;
    pub const COEFFICIENT: u32 = 11;
}

impl Refusal {
    /// The number of the refusal, 1 to 11, as the C interface has it.
    pub const fn number(&self) -> u32 {
        match self {
            Refusal::Lengths => numbers::LENGTHS,
            Refusal::Sample(_) => numbers::SAMPLE,
            Refusal::Width => numbers::WIDTH,
            Refusal::Magnitudes(_) => numbers::MAGNITUDES,
            Refusal::NoBlock => numbers::NO_BLOCK,
            Refusal::Head => numbers::HEAD,
            Refusal::Words(_) => numbers::WORDS,
            Refusal::End(_) => numbers::END,
            Refusal::Orientation => numbers::ORIENTATION,
            Refusal::Step(_) => numbers::STEP,
            Refusal::Coefficient(_) => numbers::COEFFICIENT,
        }
    }

    /// The place that the refusal names, 0 where it names none.
    pub const fn place(&self) -> usize {
        match *self {
            Refusal::Lengths | Refusal::Width | Refusal::NoBlock => 0,
            Refusal::Head | Refusal::Orientation => 0,
            Refusal::Sample(place) | Refusal::Magnitudes(place) => place,
            Refusal::Words(place) | Refusal::End(place) => place,
            Refusal::Step(place) | Refusal::Coefficient(place) => place,
        }
    }
}

/// The line that the programs `transform_sheet` and `sum_sheet` print, without its newline.
///
/// ```
/// assert_eq!(weld_dct::Refusal::Sample(9).to_string(), "refused 2 at 9");
/// ```
impl fmt::Display for Refusal {
    fn fmt(&self, f: &mut fmt::Formatter<'_>) -> fmt::Result {
        write!(f, "refused {} at {}", self.number(), self.place())
    }
}

impl error::Error for Refusal {}

/// What [`summary`] says of a block.
#[derive(Debug, Clone, Copy, PartialEq)]
pub enum Summary {
    /// All coefficients but the first are 0.
    Flat {
        /// The mean grey: the first coefficient in eighths over 64.
        mean: f32,
    },
    /// They are not.
    Textured {
        /// The mean grey: the first coefficient in eighths over 64.
        mean: f32,
        /// The one of largest magnitude among the other 63, in eighths over 8 and with its sign; of equal magnitudes the
        /// one of the lowest index.
        largest: f32,
    },
}

/// What [`sheet`] returns of a sheet that it accepts. The two sums are equal on every such sheet.
#[derive(Debug, Clone, Copy, PartialEq, Eq)]
pub struct Transformed {
    /// The words written.
    pub words: usize,
    /// The sum of all samples.
    pub sample_sum: i64,
    /// The sum of the first coefficient in eighths of each block.
    pub first_sum: i64,
}

/// The lowest and the highest float of a coefficient sheet.
#[derive(Debug, Clone, Copy, PartialEq)]
pub struct Range {
    /// The lowest.
    pub lowest: f32,
    /// The highest.
    pub highest: f32,
}

/// What most functions of the C interface return.
#[repr(C)]
struct Answer {
    number: u32,
    place: usize,
}

/// What that of [`summary`] returns.
#[repr(C)]
struct SummaryAnswer {
    answer: Answer,
    textured: u32,
    mean: f32,
    largest: f32,
}

/// What that of [`sheet`] returns.
#[repr(C)]
struct SheetAnswer {
    answer: Answer,
    sample_sum: i64,
    first_sum: i64,
}

/// What that of [`sheet_range`] returns.
#[repr(C)]
struct RangeAnswer {
    answer: Answer,
    lowest: f32,
    highest: f32,
}

extern "C" {
    fn weld_dct_forward(samples: *const i32, n: usize, elements: *mut i32, m: usize) -> Answer;
    fn weld_dct_back(elements: *const i32, n: usize, samples: *mut i32, m: usize) -> Answer;
    fn weld_dct_round(
        elements: *const i32,
        n: usize,
        b: u32,
        coefficients: *mut i32,
        m: usize,
    ) -> Answer;
    fn weld_dct_reorient(
        elements: *const i32,
        n: usize,
        orientation: u32,
        output: *mut i32,
        m: usize,
    ) -> Answer;
    fn weld_dct_compose_orientations(first: u32, second: u32) -> Answer;
    fn weld_dct_quantize(
        coefficients: *const i32,
        n: usize,
        steps: *const u32,
        k: usize,
        quantized: *mut i32,
        m: usize,
    ) -> Answer;
    fn weld_dct_dequantize(
        quantized: *const i32,
        n: usize,
        steps: *const u32,
        k: usize,
        coefficients: *mut i32,
        m: usize,
    ) -> Answer;
    fn weld_dct_to_floats(coefficients: *const i32, n: usize, floats: *mut f32, m: usize)
        -> Answer;
    fn weld_dct_summary(coefficients: *const i32, n: usize) -> SummaryAnswer;
    fn weld_dct_sheet(
        words: *const u32,
        n: usize,
        b: u32,
        scratch: *mut i32,
        k: usize,
        output: *mut u32,
        m: usize,
    ) -> SheetAnswer;
    fn weld_dct_sheet_range(words: *const u32, n: usize) -> RangeAnswer;
}

impl Answer {
    /// The place of an accepted call, which is the words written of a sheet that is transformed, the composed one of two
    /// orientations, and 0 otherwise; or the refusal.
    fn outcome(self) -> Result<usize, Refusal> {
        match self.number {
            numbers::ACCEPTED => Ok(self.place),
            numbers::LENGTHS => Err(Refusal::Lengths),
            numbers::SAMPLE => Err(Refusal::Sample(self.place)),
            numbers::WIDTH => Err(Refusal::Width),
            numbers::MAGNITUDES => Err(Refusal::Magnitudes(self.place)),
            numbers::NO_BLOCK => Err(Refusal::NoBlock),
            numbers::HEAD => Err(Refusal::Head),
            numbers::WORDS => Err(Refusal::Words(self.place)),
            numbers::END => Err(Refusal::End(self.place)),
            numbers::ORIENTATION => Err(Refusal::Orientation),
            numbers::STEP => Err(Refusal::Step(self.place)),
            numbers::COEFFICIENT => Err(Refusal::Coefficient(self.place)),
            number => unreachable!("the library is proved to return 0 to 11, and not {number}"),
        }
    }
}

impl SummaryAnswer {
    /// The summary, or the refusal.
    fn outcome(self) -> Result<Summary, Refusal> {
        self.answer.outcome()?;
        let (mean, largest) = (self.mean, self.largest);
        Ok(match self.textured {
            0 => Summary::Flat { mean },
            _ => Summary::Textured { mean, largest },
        })
    }
}

impl SheetAnswer {
    /// The words written and both sums, or the refusal.
    fn outcome(self) -> Result<Transformed, Refusal> {
        let words = self.answer.outcome()?;
        Ok(Transformed {
            words,
            sample_sum: self.sample_sum,
            first_sum: self.first_sum,
        })
    }
}

impl RangeAnswer {
    /// The two floats, or the refusal.
    fn outcome(self) -> Result<Range, Refusal> {
        self.answer.outcome()?;
        let (lowest, highest) = (self.lowest, self.highest);
        Ok(Range { lowest, highest })
    }
}

/// Makes the 64 exact elements of a block.
///
/// `samples` has the sample of row i, column j at index 8i+j. The element of the frequencies u down and v across is
/// written from index 8·(8u+v) of `elements` on: eight numbers u_0 to u_7, which mean u_0 + u_1·c_1 + ... + u_7·c_7,
/// c_k being 2·cos(kπ/16). That is exactly sixteen times the DCT value that ITU-T T.81, A.3.3, has for these
/// frequencies.
///
/// # Errors
///
/// In this order, and `elements` is then as it was:
/// - [`Refusal::Lengths`]: `samples` has not 64 numbers or `elements` not 512;
/// - [`Refusal::Sample`]: a sample is not from [`LOWEST_SAMPLE`] to [`HIGHEST_SAMPLE`].
///
/// ```
/// use weld_dct::{forward, Refusal, COMPONENTS, HIGHEST_SAMPLE, PLACES};
///
/// let mut elements = [0; COMPONENTS];
/// let mut samples = [0; PLACES];
/// samples[0] = 1;
/// forward(&samples, &mut elements)?;
/// assert_eq!(elements[8..16], [0, 0, 0, 1, 0, 1, 0, 0]); // c_3 + c_5
///
/// samples[9] = HIGHEST_SAMPLE + 1;
/// assert_eq!(forward(&samples, &mut elements), Err(Refusal::Sample(9)));
/// # Ok::<(), Refusal>(())
/// ```
pub fn forward(samples: &[i32], elements: &mut [i32]) -> Result<(), Refusal> {
    let (n, m) = (samples.len(), elements.len());
    // SAFETY: the pointers are those of slices, with their lengths, and a slice borrowed mutably overlaps no other.
    let answer = unsafe { weld_dct_forward(samples.as_ptr(), n, elements.as_mut_ptr(), m) };
    answer.outcome().map(|_| ())
}

/// Makes the block that has 64 given elements.
///
/// `elements` is laid out as [`forward`] writes it. The call is accepted exactly if there is a block in range of which
/// `forward` makes these 512 numbers. There is then only one, and that is written to `samples`.
///
/// # Errors
///
/// In this order, and `samples` is then as it was:
/// - [`Refusal::Lengths`]: `elements` has not 512 numbers or `samples` not 64;
/// - [`Refusal::Magnitudes`]: the magnitudes of an element's eight components sum above [`MAGNITUDES_LIMIT`];
/// - [`Refusal::NoBlock`]: no block in range has these elements.
///
/// ```
/// use weld_dct::{back, Refusal, COMPONENTS, PLACES};
///
/// let mut samples = [0; PLACES];
/// let mut elements = [0; COMPONENTS];
/// elements[0] = 128;
/// back(&elements, &mut samples)?;
/// assert_eq!(samples, [1; PLACES]);
///
/// elements[0] = 1;
/// assert_eq!(back(&elements, &mut samples), Err(Refusal::NoBlock));
/// # Ok::<(), Refusal>(())
/// ```
pub fn back(elements: &[i32], samples: &mut [i32]) -> Result<(), Refusal> {
    let (n, m) = (elements.len(), samples.len());
    // SAFETY: the pointers are those of slices, with their lengths, and a slice borrowed mutably overlaps no other.
    let answer = unsafe { weld_dct_back(elements.as_ptr(), n, samples.as_mut_ptr(), m) };
    answer.outcome().map(|_| ())
}

/// Makes 64 coefficients in eighths of 64 exact elements, at the width b.
///
/// `elements` is laid out as [`forward`] writes it, a block's or others within the limit. The coefficient of (u,v),
/// which stands for eight times the DCT value, is written at index 8u+v of `coefficients`. It is the whole number
/// nearest to N / 2^(b+1), where N is 2^b·u_0 + m_1·u_1 + ... + m_7·u_7 and m_k is the whole number nearest to 2^b·c_k; a
/// half goes away from zero, so that elements with all components negated give all coefficients negated. A coefficient
/// is never further than 1/2 + 1,048,576/2^b from half of its element's exact value, 1,048,576 being a quarter of
/// [`MAGNITUDES_LIMIT`], and never beyond [`COEFFICIENT_LIMIT`] in magnitude.
///
/// # Errors
///
/// In this order, and `coefficients` is then as it was:
/// - [`Refusal::Lengths`]: `elements` has not 512 numbers or `coefficients` not 64;
/// - [`Refusal::Width`]: b is not 11, 20 or 26;
/// - [`Refusal::Magnitudes`]: the magnitudes of an element's eight components sum above [`MAGNITUDES_LIMIT`].
///
/// ```
/// use weld_dct::{round, Refusal, COMPONENTS, PLACES};
///
/// let mut coefficients = [0; PLACES];
/// let mut elements = [0; COMPONENTS];
/// elements[2] = 256;
/// round(&elements, 11, &mut coefficients)?;
/// assert_eq!(coefficients[0], 237);
/// elements[2] = -256;
/// round(&elements, 11, &mut coefficients)?;
/// assert_eq!(coefficients[0], -237);
/// assert_eq!(round(&elements, 12, &mut coefficients), Err(Refusal::Width));
/// # Ok::<(), Refusal>(())
/// ```
pub fn round(elements: &[i32], b: u32, coefficients: &mut [i32]) -> Result<(), Refusal> {
    let (n, m) = (elements.len(), coefficients.len());
    // SAFETY: the pointers are those of slices, with their lengths, and a slice borrowed mutably overlaps no other.
    let answer = unsafe { weld_dct_round(elements.as_ptr(), n, b, coefficients.as_mut_ptr(), m) };
    answer.outcome().map(|_| ())
}

/// Reorients 64 exact elements, without going back to samples.
///
/// `elements` is laid out as [`forward`] writes it, a block's or others within the limit, and `output` is likewise.
/// [`ORIENTATIONS`] says what each orientation does. Where the elements are a block's, those of the reoriented block are
/// written. Of any set, the same elements are written, each at its place and with its sign: the swap exchanges those of
/// (u,v) and (v,u); then mirroring left and right negates those where v is odd, and top and bottom those where u is odd.
/// No magnitude changes, so that what is written is within the limit again.
///
/// # Errors
///
/// In this order, and `output` is then as it was:
/// - [`Refusal::Lengths`]: `elements` or `output` has not 512 numbers;
/// - [`Refusal::Orientation`]: the orientation is above 7;
/// - [`Refusal::Magnitudes`]: the magnitudes of an element's eight components sum above [`MAGNITUDES_LIMIT`].
///
/// ```
/// use weld_dct::{forward, reorient, Refusal, COMPONENTS, PLACES};
///
/// let (mut elements, mut mirrored) = ([0; COMPONENTS], [0; COMPONENTS]);
/// let mut samples = [0; PLACES];
/// samples[0] = 1; // top left
/// forward(&samples, &mut elements)?;
/// samples[..8].reverse();
/// forward(&samples, &mut mirrored)?;
///
/// let mut output = [0; COMPONENTS];
/// reorient(&elements, 1, &mut output)?;
/// assert_eq!(output, mirrored);
/// assert_eq!(reorient(&elements, 8, &mut output), Err(Refusal::Orientation));
/// # Ok::<(), Refusal>(())
/// ```
pub fn reorient(elements: &[i32], orientation: u32, output: &mut [i32]) -> Result<(), Refusal> {
    let (n, m) = (elements.len(), output.len());
    let (elements, output) = (elements.as_ptr(), output.as_mut_ptr());
    // SAFETY: the pointers are those of slices, with their lengths, and a slice borrowed mutably overlaps no other.
    let answer = unsafe { weld_dct_reorient(elements, n, orientation, output, m) };
    answer.outcome().map(|_| ())
}

/// Names the one orientation that equals the first followed by the second.
///
/// For all elements within the limit, [`reorient`] by the first and then by the second writes the same 512 numbers as by
/// this one.
///
/// # Errors
///
/// [`Refusal::Orientation`]: one of the two is above 7.
///
/// ```
/// use weld_dct::{compose_orientations, Refusal};
///
/// assert_eq!(compose_orientations(4, 1), Ok(5));
/// assert_eq!(compose_orientations(1, 4), Ok(6)); // the swap takes left and right to top and bottom
/// assert_eq!(compose_orientations(0, 8), Err(Refusal::Orientation));
/// ```
pub fn compose_orientations(first: u32, second: u32) -> Result<u32, Refusal> {
    // SAFETY: only numbers are passed.
    let answer = unsafe { weld_dct_compose_orientations(first, second) };
    answer.outcome().map(|orientation| orientation as u32)
}

/// Makes 64 quantized values of 64 coefficients in eighths, by their quantization steps (ITU-T T.81, A.3.4).
///
/// `coefficients` has the one of (u,v) at index 8u+v, as [`round`] lays them out. `steps` has numbers from 1 to 1,024, in
/// the zig-zag order of T.81, Figure A.6: those of (0,0), (0,1), (1,0), (2,0), (1,1), (0,2), (0,3), and so on to (7,7).
/// The quantized value of (u,v) is written at index 8u+v of `quantized`. It is the whole number nearest to the
/// coefficient over 8 times the step of (u,v); a half goes away from zero.
///
/// # Errors
///
/// In this order, and `quantized` is then as it was:
/// - [`Refusal::Lengths`]: `coefficients`, `steps` or `quantized` has not 64 numbers;
/// - [`Refusal::Step`]: a step is not from 1 to 1,024;
/// - [`Refusal::Coefficient`]: a coefficient is beyond 4,194,303 in magnitude.
///
/// ```
/// use weld_dct::{quantize, Refusal, PLACES};
///
/// let (mut coefficients, mut steps) = ([0; PLACES], [16; PLACES]);
/// (coefficients[0], coefficients[8]) = (1000, -204);
/// steps[2] = 3; // of (1,0), which is at index 8
/// let mut quantized = [0; PLACES];
/// quantize(&coefficients, &steps, &mut quantized)?;
/// assert_eq!(quantized[0], 8); // 1000 / 128 is 7.8125
/// assert_eq!(quantized[8], -9); // -204 / 24 is -8.5
///
/// steps[63] = 0;
/// assert_eq!(quantize(&coefficients, &steps, &mut quantized), Err(Refusal::Step(63)));
/// # Ok::<(), Refusal>(())
/// ```
pub fn quantize(coefficients: &[i32], steps: &[u32], quantized: &mut [i32]) -> Result<(), Refusal> {
    let (n, k, m) = (coefficients.len(), steps.len(), quantized.len());
    let (steps, quantized) = (steps.as_ptr(), quantized.as_mut_ptr());
    // SAFETY: the pointers are those of slices, with their lengths, and a slice borrowed mutably overlaps no other.
    let answer = unsafe { weld_dct_quantize(coefficients.as_ptr(), n, steps, k, quantized, m) };
    answer.outcome().map(|_| ())
}

/// Makes 64 coefficients in eighths of 64 quantized values, by their quantization steps.
///
/// `quantized` is laid out as [`quantize`] writes it, and `steps` has numbers from 1 to 1,024, in zig-zag order as there.
/// The coefficient of (u,v) is written at index 8u+v of `coefficients`. It is the quantized value times 8 times the step
/// of (u,v). What `quantize` writes is accepted at the same steps, and each coefficient that comes back is no further
/// than 4 times its step from the one that was quantized.
///
/// # Errors
///
/// In this order, and `coefficients` is then as it was:
/// - [`Refusal::Lengths`]: `quantized`, `steps` or `coefficients` has not 64 numbers;
/// - [`Refusal::Step`]: a step is not from 1 to 1,024;
/// - [`Refusal::Coefficient`]: a coefficient would be beyond 4,198,399 in magnitude.
///
/// ```
/// use weld_dct::{dequantize, Refusal, PLACES};
///
/// let (mut quantized, steps) = ([0; PLACES], [16; PLACES]);
/// quantized[0] = 8;
/// let mut coefficients = [0; PLACES];
/// dequantize(&quantized, &steps, &mut coefficients)?;
/// assert_eq!(coefficients[0], 1024);
///
/// quantized[9] = i32::MAX;
/// assert_eq!(dequantize(&quantized, &steps, &mut coefficients), Err(Refusal::Coefficient(9)));
/// # Ok::<(), Refusal>(())
/// ```
pub fn dequantize(
    quantized: &[i32],
    steps: &[u32],
    coefficients: &mut [i32],
) -> Result<(), Refusal> {
    let (n, k, m) = (quantized.len(), steps.len(), coefficients.len());
    let (steps, coefficients) = (steps.as_ptr(), coefficients.as_mut_ptr());
    // SAFETY: the pointers are those of slices, with their lengths, and a slice borrowed mutably overlaps no other.
    let answer = unsafe { weld_dct_dequantize(quantized.as_ptr(), n, steps, k, coefficients, m) };
    answer.outcome().map(|_| ())
}

/// Makes 64 floats of 64 coefficients in eighths.
///
/// `coefficients` has the one of (u,v) at index 8u+v, as [`round`] lays them out. At each index of `floats` the
/// coefficient over 8 is written, exactly; zero is plus zero.
///
/// # Errors
///
/// In this order, and `floats` is then as it was:
/// - [`Refusal::Lengths`]: `coefficients` or `floats` has not 64 numbers;
/// - [`Refusal::Coefficient`]: a coefficient is beyond 4,194,303 in magnitude.
///
/// ```
/// use weld_dct::{to_floats, Refusal, COEFFICIENT_LIMIT, PLACES};
///
/// let mut coefficients = [0; PLACES];
/// (coefficients[0], coefficients[9]) = (64, -237);
/// let mut floats = [0.0; PLACES];
/// to_floats(&coefficients, &mut floats)?;
/// assert_eq!((floats[0], floats[9]), (8.0, -29.625));
///
/// coefficients[5] = COEFFICIENT_LIMIT + 1;
/// assert_eq!(to_floats(&coefficients, &mut floats), Err(Refusal::Coefficient(5)));
/// # Ok::<(), Refusal>(())
/// ```
pub fn to_floats(coefficients: &[i32], floats: &mut [f32]) -> Result<(), Refusal> {
    let (n, m) = (coefficients.len(), floats.len());
    // SAFETY: the pointers are those of slices, with their lengths, and a slice borrowed mutably overlaps no other.
    let answer = unsafe { weld_dct_to_floats(coefficients.as_ptr(), n, floats.as_mut_ptr(), m) };
    answer.outcome().map(|_| ())
}

/// Says whether a block is flat or textured, with its mean grey and its largest other coefficient.
///
/// `coefficients` has the one of (u,v), in eighths, at index 8u+v, as [`round`] lays them out. [`Summary`] says what the
/// floats are. They are exact, and zero is plus zero.
///
/// # Errors
///
/// In this order:
/// - [`Refusal::Lengths`]: `coefficients` has not 64 numbers;
/// - [`Refusal::Coefficient`]: a coefficient is beyond 4,194,303 in magnitude.
///
/// ```
/// use weld_dct::{summary, Refusal, Summary, PLACES};
///
/// let mut coefficients = [0; PLACES];
/// coefficients[0] = 96;
/// assert_eq!(summary(&coefficients)?, Summary::Flat { mean: 1.5 });
///
/// (coefficients[9], coefficients[10]) = (-8, 8);
/// let textured = Summary::Textured { mean: 1.5, largest: -1.0 };
/// assert_eq!(summary(&coefficients)?, textured);
/// assert_eq!(summary(&coefficients[1..]), Err(Refusal::Lengths));
/// # Ok::<(), Refusal>(())
/// ```
pub fn summary(coefficients: &[i32]) -> Result<Summary, Refusal> {
    // SAFETY: the pointer is that of a slice, with its length.
    unsafe { weld_dct_summary(coefficients.as_ptr(), coefficients.len()) }.outcome()
}

/// Makes a sheet of coefficient words of a sheet of sample words, at the width b, and returns the words written and two
/// sums.
///
/// A word has its kind in its top four bits and a payload in the other 28. `words` is a head of kind 1, blocks across
/// in bits 27 to 14 and blocks down in bits 13 to 0; for each block, left to right and then down, 64 words of kind 2,
/// each a sample in 28-bit two's complement; and an end word of kind 15, its payload the number of blocks. Both sizes
/// are at least 1 and their product is at most 128.
///
/// As many words are written to `output`: a head of kind 4 with the same sizes, for each block 64 words of kind 3, each
/// a coefficient in 28-bit two's complement as [`round`] gives it at b, and the same end word. Words beyond them stay as
/// they were. A sheet with all samples negated, where these are in range, gives all coefficients negated. `scratch` has
/// the elements of the last block afterwards. The sum of all samples, and that of the first coefficient in eighths of
/// each block, are returned in [`Transformed`]; they are equal on every accepted sheet.
///
/// # Errors
///
/// In this order, and `scratch` and `output` are then as they were:
/// - [`Refusal::Width`]: b is not 11, 20 or 26;
/// - [`Refusal::Head`]: there are no words, the first is not of kind 1, or its sizes are not allowed;
/// - [`Refusal::Words`] with the count: there are not [`sheet_words`] of the number of blocks;
/// - [`Refusal::Lengths`]: `scratch` has not 512 numbers, or `output` is shorter than `words`;
/// - then the first faulty word: [`Refusal::Words`] with its index for its kind, and [`Refusal::Sample`] or
///   [`Refusal::End`] for what it holds.
///
/// ```
/// use weld_dct::{sheet, sheet_words, Refusal, Transformed, COMPONENTS};
///
/// let mut words = [0x2000_0001; sheet_words(1)];
/// (words[0], words[65]) = (0x1000_4001, 0xF000_0001);
/// let mut scratch = [0; COMPONENTS];
/// let mut output = [0; sheet_words(1)];
/// let made = Transformed { words: 66, sample_sum: 64, first_sum: 64 };
/// assert_eq!(sheet(&words, 26, &mut scratch, &mut output), Ok(made));
/// assert_eq!(output[..3], [0x4000_4001, 0x3000_0040, 0x3000_0000]);
///
/// words[65] = 0xF000_0002;
/// assert_eq!(sheet(&words, 26, &mut scratch, &mut output), Err(Refusal::End(65)));
/// ```
pub fn sheet(
    words: &[u32],
    b: u32,
    scratch: &mut [i32],
    output: &mut [u32],
) -> Result<Transformed, Refusal> {
    let (n, k, m) = (words.len(), scratch.len(), output.len());
    let (scratch, output) = (scratch.as_mut_ptr(), output.as_mut_ptr());
    // SAFETY: the pointers are those of slices, with their lengths, and a slice borrowed mutably overlaps no other.
    let answer = unsafe { weld_dct_sheet(words.as_ptr(), n, b, scratch, k, output, m) };
    answer.outcome()
}

/// Returns the lowest and the highest float of a coefficient sheet.
///
/// `words` is a head of kind 4, 64 words of kind 3 for each block, each a coefficient in eighths in 28-bit two's
/// complement, and an end word, laid out as [`sheet`] writes them. The floats are the coefficients over 8, exactly; zero
/// is plus zero.
///
/// # Errors
///
/// In this order:
/// - [`Refusal::Head`]: there are no words, the first is not of kind 4, or its sizes are not allowed;
/// - [`Refusal::Words`] with the count: there are not [`sheet_words`] of the number of blocks;
/// - then the first faulty word: [`Refusal::Words`] with its index for its kind, [`Refusal::Coefficient`] if it holds one
///   beyond 4,194,303 in magnitude, and [`Refusal::End`] for what the end word holds.
///
/// ```
/// use weld_dct::{sheet_range, sheet_words, Range, Refusal};
///
/// let mut words = [0x3000_0040; sheet_words(1)];
/// (words[0], words[9], words[65]) = (0x4000_4001, 0x3FFF_FFFC, 0xF000_0001);
/// let range = Range { lowest: -0.5, highest: 8.0 };
/// assert_eq!(sheet_range(&words), Ok(range));
///
/// words[64] = 0x3040_0000;
/// assert_eq!(sheet_range(&words), Err(Refusal::Coefficient(64)));
/// ```
pub fn sheet_range(words: &[u32]) -> Result<Range, Refusal> {
    // SAFETY: the pointer is that of a slice, with its length.
    unsafe { weld_dct_sheet_range(words.as_ptr(), words.len()) }.outcome()
}
