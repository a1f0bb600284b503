//! Forward and back by any passes, behind the library's checks.
use crate::inputs::{Elements, Samples};
use weld_dct::{
    Refusal, COEFFICIENT_LIMIT, COMPONENTS, HIGHEST_SAMPLE, LOWEST_SAMPLE, MAGNITUDES_LIMIT,
};

/// What makes elements of samples, and samples of elements.
pub trait Passes {
    /// `restored` reads only so many components, the first ones.
    const READ: usize;

    /// The elements of a block.
    fn transform(samples: &Samples, elements: &mut Elements);

    /// The block that has these elements, if there is one, and any numbers otherwise.
    fn restored(elements: &Elements) -> Samples;
}

/// Whether something holds for any of these. Without an early exit the compiler asks several at a time.
#[inline(always)]
fn any<T>(all: &[T], holds: impl Fn(&T) -> bool) -> bool {
    all.iter().fold(false, |any, x| any | holds(x))
}

/// The index of the first for which something holds. It is searched for only if there is one.
#[inline(always)]
pub fn first<T>(all: &[T], holds: impl Fn(&T) -> bool) -> Option<usize> {
    any(all, &holds)
        .then(|| all.iter().position(holds))
        .flatten()
}

#[inline(always)]
pub fn is_sample(x: i32) -> bool {
    (LOWEST_SAMPLE..=HIGHEST_SAMPLE).contains(&x)
}

/// Whether a coefficient is within the limit of those that come in.
#[inline(always)]
pub fn is_coefficient(y: i32) -> bool {
    (-COEFFICIENT_LIMIT..=COEFFICIENT_LIMIT).contains(&y)
}

/// The exact elements of a block.
pub fn forward<P: Passes>(samples: &[i32], elements: &mut [i32]) -> Result<(), Refusal> {
    let samples: &Samples = samples.try_into().map_err(|_| Refusal::Lengths)?;
    let elements: &mut Elements = elements.try_into().map_err(|_| Refusal::Lengths)?;
    if let Some(i) = first(samples, |x| !is_sample(*x)) {
        return Err(Refusal::Sample(i));
    }
    P::transform(samples, elements);
    Ok(())
}

/// The number of the first element whose magnitudes sum above the limit.
#[inline(always)]
pub fn first_above_limit(elements: &Elements) -> Option<usize> {
    let sum = |u: &[i32]| u.iter().map(|x| u64::from(x.unsigned_abs())).sum::<u64>();
    elements
        .chunks_exact(8)
        .position(|u| sum(u) > u64::from(MAGNITUDES_LIMIT))
}

/// The block that has these elements: forward decides whether what is restored does. Where a component that is read is
/// above the limit by itself, nothing is restored, and so no sum wraps.
fn block_of<P: Passes>(elements: &Elements) -> Option<Samples> {
    if any(&elements[..P::READ], |x| {
        x.unsigned_abs() > MAGNITUDES_LIMIT
    }) {
        return None;
    }
    let (block, mut made) = (P::restored(elements), [0; COMPONENTS]);
    forward::<P>(&block, &mut made).ok()?;
    (made == *elements).then_some(block)
}

/// The block that has these elements. A block's set is within the limit, so that it is searched only if there is none.
pub fn back<P: Passes>(elements: &[i32], samples: &mut [i32]) -> Result<(), Refusal> {
    let elements: &Elements = elements.try_into().map_err(|_| Refusal::Lengths)?;
    let samples: &mut Samples = samples.try_into().map_err(|_| Refusal::Lengths)?;
    *samples = block_of::<P>(elements)
        .ok_or_else(|| first_above_limit(elements).map_or(Refusal::NoBlock, Refusal::Magnitudes))?;
    Ok(())
}
