//! Exact elements as eight i32, by value.
//!
//! Everything here is always inlined: the compiler then sees which components are zero, and leaves them out.
use std::array::from_fn;
use std::ops::{Add, Neg, Sub};
use weld_dct::COMPONENTS;

/// u_0 + u_1·c_1 + ... + u_7·c_7
#[derive(Clone, Copy)]
pub struct Element(pub [i32; 8]);

pub type Row = [Element; 8];

impl Add for Element {
    type Output = Element;
    #[inline(always)]
    fn add(self, other: Element) -> Element {
        Element(from_fn(|k| self.0[k] + other.0[k]))
    }
}

impl Sub for Element {
    type Output = Element;
    #[inline(always)]
    fn sub(self, other: Element) -> Element {
        Element(from_fn(|k| self.0[k] - other.0[k]))
    }
}

impl Neg for Element {
    type Output = Element;
    #[inline(always)]
    fn neg(self) -> Element {
        Element(self.0.map(|u| -u))
    }
}

impl Element {
    /// Element p of a buffer.
    #[inline(always)]
    pub fn at(elements: &[i32; COMPONENTS], p: usize) -> Element {
        Element(from_fn(|k| elements[8 * p + k]))
    }

    /// u_(j-7): the components go on past u_0 and u_7 as the cosines do.
    #[inline(always)]
    fn continued(self, j: usize) -> i32 {
        match j {
            0..=6 => self.0[7 - j],
            7..=14 => self.0[j - 7],
            15 => 0,
            _ => -self.0[23 - j],
        }
    }

    /// The product with c_K.
    #[inline(always)]
    pub fn times<const K: usize>(self) -> Element {
        Element(from_fn(|i| {
            self.continued(7 + i - K) + self.continued(7 + i + K)
        }))
    }
}

/// Row u of a buffer.
#[inline(always)]
pub fn row_at(elements: &[i32; COMPONENTS], u: usize) -> Row {
    from_fn(|v| Element::at(elements, 8 * u + v))
}

/// Stores a row as row u of a buffer.
#[inline(always)]
pub fn store(row: &Row, u: usize, elements: &mut [i32; COMPONENTS]) {
    for (v, element) in row.iter().enumerate() {
        elements[8 * (8 * u + v)..][..8].copy_from_slice(&element.0);
    }
}
