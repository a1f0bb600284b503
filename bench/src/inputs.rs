//! What every side is given: blocks, half of them random and half smooth with a little grain, their exact elements,
//! coefficients and quantized values, and sheets of samples and of coefficients.
use std::array::from_fn;
use weld_dct::{
    forward, quantize, round, sheet_words, Refusal, BLOCKS_LIMIT, COMPONENTS, HIGHEST_SAMPLE,
    PLACES,
};

/// The blocks that are given.
pub const BLOCKS: usize = 256;

/// The bits that a sample may have, sign included.
pub const SAMPLE_BITS: u32 = 1 + i32::BITS - HIGHEST_SAMPLE.leading_zeros();

/// 64 samples.
pub type Samples = [i32; PLACES];

/// The exact elements of a block.
pub type Elements = [i32; COMPONENTS];

/// 64 quantization steps, in zig-zag order.
pub type Steps = [u32; PLACES];

/// The steps that everything is quantized by: T.81's Table K.1, for luminance.
pub const STEPS: Steps = [
    16, 11, 12, 14, 12, 10, 16, 14, 13, 14, 18, 17, 16, 19, 24, 40, 26, 24, 22, 22, 24, 49, 35, 37,
    29, 40, 58, 51, 61, 60, 57, 51, 56, 55, 64, 72, 92, 78, 64, 68, 87, 69, 55, 56, 80, 109, 81,
    87, 95, 98, 103, 104, 103, 62, 77, 113, 121, 112, 100, 120, 92, 101, 103, 99,
];

/// The kinds of a sheet's head and of the words of its blocks.
pub type Kinds = [u32; 2];
pub const SAMPLES: Kinds = [1, 2];
pub const COEFFICIENTS: Kinds = [4, 3];

/// Blocks, their exact elements, coefficients at 26 and quantized values, and the sheets that samples and coefficients
/// fill.
pub struct Given {
    pub blocks: Vec<Samples>,
    pub sets: Vec<Elements>,
    pub coefficients: Vec<Samples>,
    pub quantized: Vec<Samples>,
    pub sheets: Vec<Vec<u32>>,
    pub coefficient_sheets: Vec<Vec<u32>>,
}

impl Given {
    /// With samples of so many bits, sign included.
    pub fn new(bits: u32) -> Result<Given, String> {
        Given::of(blocks(bits)).map_err(|refusal| refusal.to_string())
    }

    fn of(blocks: Vec<Samples>) -> Result<Given, Refusal> {
        let sets = all(&blocks, forward)?;
        let coefficients = all(&sets, |elements, made| round(elements, 26, made))?;
        Ok(Given {
            sheets: sheets(SAMPLES, &blocks, BLOCKS_LIMIT),
            coefficient_sheets: sheets(COEFFICIENTS, &coefficients, BLOCKS_LIMIT),
            quantized: all(&coefficients, |y, made| quantize(y, &STEPS, made))?,
            blocks,
            sets,
            coefficients,
        })
    }
}

/// Numbers from low to high, by xorshift.
struct Random(u64);

impl Random {
    fn next(&mut self, low: i32, high: i32) -> i32 {
        self.0 ^= self.0 << 13;
        self.0 ^= self.0 >> 7;
        self.0 ^= self.0 << 17;
        low + (self.0 % (high - low + 1) as u64) as i32
    }
}

fn random_block(random: &mut Random, most: i32) -> Samples {
    from_fn(|_| random.next(-most - 1, most))
}

/// A slope with a little grain.
fn smooth_block(random: &mut Random, most: i32) -> Samples {
    let level = random.next(-most / 4, most / 4);
    let (down, across) = (
        random.next(-most / 32, most / 32),
        random.next(-most / 32, most / 32),
    );
    let slope = |n: usize| level + down * (n / 8) as i32 + across * (n % 8) as i32;
    from_fn(|n| slope(n) + random.next(-most / 64, most / 64))
}

/// Blocks with samples of so many bits, in turn random and smooth.
fn blocks(bits: u32) -> Vec<Samples> {
    let mut random = Random(88172645463325252);
    let most = (1 << (bits - 1)) - 1;
    let pair = |_| {
        [
            random_block(&mut random, most),
            smooth_block(&mut random, most),
        ]
    };
    (0..BLOCKS / 2).flat_map(pair).collect()
}

/// What a job makes of each of these.
fn all<const N: usize, const M: usize>(
    given: &[[i32; N]],
    job: impl Fn(&[i32], &mut [i32]) -> Result<(), Refusal>,
) -> Result<Vec<[i32; M]>, Refusal> {
    let each = |numbers: &[i32; N]| {
        let mut made = [0; M];
        job(numbers, &mut made).map(|()| made)
    };
    given.iter().map(each).collect()
}

/// Sheets of so many of the blocks each, one block down.
pub fn sheets([head, body]: Kinds, blocks: &[Samples], each: usize) -> Vec<Vec<u32>> {
    let sheet = |blocks: &[Samples]| {
        let count = blocks.len() as u32;
        let mut words = Vec::with_capacity(sheet_words(blocks.len()));
        words.push(head << 28 | count << 14 | 1);
        words.extend(
            blocks
                .iter()
                .flatten()
                .map(|x| body << 28 | *x as u32 & 0x0FFF_FFFF),
        );
        words.push(15 << 28 | count);
        words
    };
    blocks.chunks(each).map(sheet).collect()
}
