//! Dense passes: the same factorised step on elements over every column and every row, and its transpose on the way back.
//!
//! What a step is made of is always inlined. The compiler then sees that the columns of forward hold whole numbers, and
//! that those of back are asked for whole numbers, and leaves out what is not needed.
use crate::element::{row_at, store, Element, Row};
use crate::exact::Passes;
use crate::inputs::{Elements, Samples};
use std::array::from_fn;
use weld_dct::COMPONENTS;

/// The frequencies 0, 2, 4 and 6, from the sums of a row.
#[inline(always)]
fn even([s0, s1, s2, s3]: [Element; 4]) -> [Element; 4] {
    let (p0, p1, q0, q1) = (s0 + s3, s1 + s2, s0 - s3, s1 - s2);
    [
        (p0 + p1).times::<4>(),
        q0.times::<2>() + q1.times::<6>(),
        (p0 - p1).times::<4>(),
        q0.times::<6>() - q1.times::<2>(),
    ]
}

/// What the frequencies 0, 2, 4 and 6 give at the places 0 to 3.
#[inline(always)]
fn even_back([e0, e2, e4, e6]: [Element; 4]) -> [Element; 4] {
    let (p0, p1) = ((e0 + e4).times::<4>(), (e0 - e4).times::<4>());
    let (q0, q1) = (
        e2.times::<2>() + e6.times::<6>(),
        e2.times::<6>() - e6.times::<2>(),
    );
    [p0 + q0, p1 + q1, p1 - q1, p0 - q0]
}

/// The frequencies 1, 3, 5 and 7, from the differences of a row; and, since the matrix is symmetric, what these
/// frequencies give at the places 0 to 3.
#[inline(always)]
fn odd([d0, d1, d2, d3]: [Element; 4]) -> [Element; 4] {
    [
        (d0.times::<1>() + d1.times::<3>()) + (d2.times::<5>() + d3.times::<7>()),
        (d0.times::<3>() - d1.times::<7>()) - (d2.times::<1>() + d3.times::<5>()),
        (d0.times::<5>() - d1.times::<1>()) + (d2.times::<7>() + d3.times::<3>()),
        (d0.times::<7>() - d1.times::<5>()) + (d2.times::<3>() - d3.times::<1>()),
    ]
}

/// The 8-point step over one row.
#[inline(always)]
fn step(x: &Row) -> Row {
    let e = even([x[0] + x[7], x[1] + x[6], x[2] + x[5], x[3] + x[4]]);
    let o = odd([x[0] - x[7], x[1] - x[6], x[2] - x[5], x[3] - x[4]]);
    [e[0], o[0], e[1], o[1], e[2], o[2], e[3], o[3]]
}

#[inline(always)]
fn sixteenth(Element(u): Element) -> Element {
    Element(u.map(|x| x >> 4))
}

/// The row whose step is x, if there is one: the transpose of the step, divided by 16.
#[inline(always)]
fn row_back(x: &Row) -> Row {
    let e = even_back([x[0], x[2], x[4], x[6]]);
    let o = odd([x[1], x[3], x[5], x[7]]);
    let first: [Element; 4] = from_fn(|n| sixteenth(e[n] + o[n]));
    let last: [Element; 4] = from_fn(|n| sixteenth(e[3 - n] - o[3 - n]));
    [
        first[0], first[1], first[2], first[3], last[0], last[1], last[2], last[3],
    ]
}

/// The dense passes.
pub struct Dense;

impl Passes for Dense {
    const READ: usize = COMPONENTS;

    fn transform(samples: &Samples, elements: &mut Elements) {
        let whole = |x| Element([x, 0, 0, 0, 0, 0, 0, 0]);
        let columns: [Row; 8] = from_fn(|j| step(&from_fn(|i| whole(samples[8 * i + j]))));
        let across = |u: usize| from_fn(|j| columns[j][u]);
        for u in 0..8 {
            store(&step(&across(u)), u, elements);
        }
    }

    fn restored(elements: &Elements) -> Samples {
        let rows: [Row; 8] = from_fn(|u| row_back(&row_at(elements, u)));
        let columns: [[i32; 8]; 8] =
            from_fn(|j| row_back(&from_fn(|u| rows[u][j])).map(|x| x.0[0]));
        from_fn(|n| columns[n % 8][n / 8])
    }
}
