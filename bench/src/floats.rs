//! The library's to_floats and summary.
use crate::exact::{first, is_coefficient};
use crate::inputs::Samples;
use weld_dct::{Refusal, Summary, PLACES};

/// A coefficient in eighths as a float. It has no more than 22 bits, and is divided by a power of two: nothing is rounded.
#[inline(always)]
pub fn float(y: i32) -> f32 {
    y as f32 / 8.0
}

/// The coefficients, if all of them are within the limit.
#[inline(always)]
fn checked(coefficients: &[i32]) -> Result<&Samples, Refusal> {
    let coefficients: &Samples = coefficients.try_into().map_err(|_| Refusal::Lengths)?;
    match first(coefficients, |y| !is_coefficient(*y)) {
        Some(p) => Err(Refusal::Coefficient(p)),
        None => Ok(coefficients),
    }
}

/// The floats of 64 coefficients.
pub fn to_floats(coefficients: &[i32], floats: &mut [f32]) -> Result<(), Refusal> {
    let floats: &mut [f32; PLACES] = floats.try_into().map_err(|_| Refusal::Lengths)?;
    *floats = checked(coefficients)?.map(float);
    Ok(())
}

/// Whether a block is flat, its mean, and its largest other coefficient. The largest magnitude comes first, which needs
/// no branch, and then the first that has it.
pub fn summary(coefficients: &[i32]) -> Result<Summary, Refusal> {
    let [first, others @ ..] = checked(coefficients)?;
    let mean = *first as f32 / 64.0;
    let most = others.iter().fold(0, |most, y| y.abs().max(most));
    Ok(match others.iter().find(|y| y.abs() == most) {
        Some(y) if *y != 0 => Summary::Textured {
            mean,
            largest: float(*y),
        },
        _ => Summary::Flat { mean },
    })
}
