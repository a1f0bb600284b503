//! The library's quantize and dequantize.
use crate::exact::{first, is_coefficient};
use crate::inputs::{Samples, Steps};
use weld_dct::{Refusal, DEQUANTIZED_LIMIT, PLACES, STEP_LIMIT};

/// The index in zig-zag order of each place: T.81's Figure A.6.
const ZIGZAG: [[u8; 8]; 8] = [
    [0, 1, 5, 6, 14, 15, 27, 28],
    [2, 4, 7, 13, 16, 26, 29, 42],
    [3, 8, 12, 17, 25, 30, 41, 43],
    [9, 11, 18, 24, 31, 40, 44, 53],
    [10, 19, 23, 32, 39, 45, 52, 54],
    [20, 22, 33, 38, 46, 51, 55, 60],
    [21, 34, 37, 47, 50, 56, 59, 61],
    [35, 36, 48, 49, 57, 58, 62, 63],
];

/// 8 times the step of the place p.
#[inline(always)]
fn divisor(steps: &Steps, p: usize) -> u32 {
    8 * steps[usize::from(ZIGZAG.as_flattened()[p])]
}

/// A coefficient over its divisor, to the nearest; a half goes away from zero. The sign is put back without a branch,
/// since signs cannot be foreseen.
#[inline(always)]
fn nearest(y: i32, divisor: u32) -> i32 {
    let (q, sign) = ((y.unsigned_abs() + divisor / 2) / divisor, y >> 31);
    (q as i32 ^ sign) - sign
}

/// The steps, if all of them are in range.
#[inline(always)]
fn checked(steps: &[u32]) -> Result<&Steps, Refusal> {
    let steps: &Steps = steps.try_into().map_err(|_| Refusal::Lengths)?;
    match first(steps, |step| !(1..=STEP_LIMIT).contains(step)) {
        Some(k) => Err(Refusal::Step(k)),
        None => Ok(steps),
    }
}

/// The quantized values of 64 coefficients.
pub fn quantize(coefficients: &[i32], steps: &[u32], quantized: &mut [i32]) -> Result<(), Refusal> {
    let coefficients: &Samples = coefficients.try_into().map_err(|_| Refusal::Lengths)?;
    let quantized: &mut Samples = quantized.try_into().map_err(|_| Refusal::Lengths)?;
    let steps = checked(steps)?;
    if let Some(p) = first(coefficients, |y| !is_coefficient(*y)) {
        return Err(Refusal::Coefficient(p));
    }
    for (p, q) in quantized.iter_mut().enumerate() {
        *q = nearest(coefficients[p], divisor(steps, p));
    }
    Ok(())
}

/// The coefficients of 64 quantized values. All products are made, in 64 bits, and asked before any is stored.
pub fn dequantize(
    quantized: &[i32],
    steps: &[u32],
    coefficients: &mut [i32],
) -> Result<(), Refusal> {
    let quantized: &Samples = quantized.try_into().map_err(|_| Refusal::Lengths)?;
    let coefficients: &mut Samples = coefficients.try_into().map_err(|_| Refusal::Lengths)?;
    let steps = checked(steps)?;
    let within = -i64::from(DEQUANTIZED_LIMIT)..=i64::from(DEQUANTIZED_LIMIT);
    let beyond = |z: &i64| !within.contains(z);
    let (mut products, mut any_beyond) = ([0; PLACES], false);
    for (p, z) in products.iter_mut().enumerate() {
        *z = i64::from(quantized[p]) * i64::from(divisor(steps, p));
        any_beyond |= beyond(z);
    }
    if let Some(p) = any_beyond
        .then(|| products.iter().position(beyond))
        .flatten()
    {
        return Err(Refusal::Coefficient(p));
    }
    *coefficients = products.map(|z| z as i32);
    Ok(())
}
