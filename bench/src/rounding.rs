//! The library's round.
use crate::element::Element;
use crate::exact::first_above_limit;
use crate::inputs::{Elements, Samples};
use weld_dct::Refusal;

/// A width b, and its table numbers.
pub struct Width {
    b: u32,
    numbers: [i64; 7],
}

const WIDTHS: [Width; 3] = [
    Width {
        b: 11,
        numbers: [4017, 3784, 3406, 2896, 2276, 1567, 799],
    },
    Width {
        b: 20,
        numbers: [2056856, 1937516, 1743718, 1482910, 1165115, 802545, 409134],
    },
    Width {
        b: 26,
        numbers: [
            131638772, 124001012, 111597962, 94906266, 74567374, 51362901, 26184580,
        ],
    },
];

impl Width {
    pub fn of(b: u32) -> Result<&'static Width, Refusal> {
        WIDTHS
            .iter()
            .find(|width| width.b == b)
            .ok_or(Refusal::Width)
    }

    /// N, of which the terms from m_(first+1) on are summed in steps.
    #[inline(always)]
    fn sum_of_terms(&self, u: [i32; 8], first: usize, step: usize) -> i64 {
        let mut n = i64::from(u[0]) << self.b;
        let mut k = first;
        while k < 7 {
            n += self.numbers[k] * i64::from(u[k + 1]);
            k += step;
        }
        n
    }

    /// N. Of each element of a block's set the components besides u_0 of even index, or those of odd index, are 0.
    #[inline(always)]
    fn numerator(&self, u: [i32; 8]) -> i64 {
        if u[2] | u[4] | u[6] == 0 {
            return self.sum_of_terms(u, 0, 2);
        }
        if u[1] | u[3] | u[5] | u[7] == 0 {
            return self.sum_of_terms(u, 1, 2);
        }
        self.sum_of_terms(u, 0, 1)
    }

    /// The whole number nearest to N / 2^(b+1); a half goes away from zero, since from a negative N first 1 is taken.
    #[inline(always)]
    fn coefficient(&self, Element(u): Element) -> i32 {
        let n = self.numerator(u);
        ((((n + (n >> 63)) >> self.b) + 1) >> 1) as i32
    }

    /// The coefficients of elements within the limit.
    pub fn fill(&self, elements: &Elements, coefficients: &mut Samples) {
        for (p, y) in coefficients.iter_mut().enumerate() {
            *y = self.coefficient(Element::at(elements, p));
        }
    }
}

/// The coefficients of 64 elements at the width b.
pub fn round(elements: &[i32], b: u32, coefficients: &mut [i32]) -> Result<(), Refusal> {
    let elements: &Elements = elements.try_into().map_err(|_| Refusal::Lengths)?;
    let coefficients: &mut Samples = coefficients.try_into().map_err(|_| Refusal::Lengths)?;
    let width = Width::of(b)?;
    if let Some(p) = first_above_limit(elements) {
        return Err(Refusal::Magnitudes(p));
    }
    width.fill(elements, coefficients);
    Ok(())
}
