//! The library's reorient.
use crate::element::Element;
use crate::exact::first_above_limit;
use crate::inputs::Elements;
use weld_dct::{Refusal, ORIENTATIONS};

/// The number of the element that comes to the place p.
#[inline(always)]
fn source(orientation: u32, p: usize) -> usize {
    if orientation < 4 {
        p
    } else {
        8 * (p % 8) + p / 8
    }
}

/// Whether it comes as its negative: one mirror negates where v is odd, the other where u is.
#[inline(always)]
fn is_negated(orientation: u32, p: usize) -> bool {
    let (left_right, top_bottom) = (orientation & 1 == 1, orientation & 2 == 2);
    (left_right && p % 2 == 1) != (top_bottom && p / 8 % 2 == 1)
}

/// The elements of a set in another orientation.
pub fn reorient(elements: &[i32], orientation: u32, output: &mut [i32]) -> Result<(), Refusal> {
    let elements: &Elements = elements.try_into().map_err(|_| Refusal::Lengths)?;
    let output: &mut Elements = output.try_into().map_err(|_| Refusal::Lengths)?;
    if orientation >= ORIENTATIONS {
        return Err(Refusal::Orientation);
    }
    if let Some(p) = first_above_limit(elements) {
        return Err(Refusal::Magnitudes(p));
    }
    for (p, stored) in output.chunks_exact_mut(8).enumerate() {
        let element = Element::at(elements, source(orientation, p));
        let negated = is_negated(orientation, p);
        stored.copy_from_slice(&if negated { -element } else { element }.0);
    }
    Ok(())
}
