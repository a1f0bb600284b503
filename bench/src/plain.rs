//! The passes of the library's forward and back.
//!
//! A column holds whole numbers, and the step over it only collects them at their cosines. After the columns, row u holds
//! c_4 alone where u is 0 or 4, c_2 and c_6 where it is 2 or 6, and the odd ones where it is odd. The step is linear, so
//! that the step over a row is the sum of c_k times the step over its components k, which are whole numbers again. Rows
//! 0, 4, 6 and 1 are made so. To put c_5k in place of each c_k turns rows 6, 1, 5 and 7, but for order and signs, into
//! rows 2, 5, 7 and 3.
//!
//! On the way back, rows 0, 4, 2 and 1 determine a block.
use crate::element::{row_at, store, Element, Row};
use crate::exact::Passes;
use crate::inputs::{Elements, Samples};
use std::array::from_fn;
use weld_dct::PLACES;

/// A row of whole numbers.
type Numbers = [i32; 8];

/// c_m is ±c_k, for k from 1 to 7: k, and whether the sign is minus. The step has no m that 8 divides.
#[inline(always)]
fn folded(m: usize) -> (usize, bool) {
    match m % 32 {
        r @ 0..=7 => (r, false),
        r @ 8..=15 => (16 - r, true),
        r @ 16..=23 => (r - 16, true),
        r => (32 - r, false),
    }
}

/// The whole number x times c_m.
#[inline(always)]
fn multiple(x: i32, m: usize) -> Element {
    let (k, minus) = folded(m);
    let mut u = [0; 8];
    u[k] = if minus { -x } else { x };
    Element(u)
}

/// What c_m is multiplied by in an element.
#[inline(always)]
fn part(a: Element, m: usize) -> i32 {
    let (k, minus) = folded(m);
    if minus {
        -a.0[k]
    } else {
        a.0[k]
    }
}

#[inline(always)]
fn combination(x: [i32; 4], m: [usize; 4]) -> Element {
    multiple(x[0], m[0]) + multiple(x[1], m[1]) + multiple(x[2], m[2]) + multiple(x[3], m[3])
}

/// The 8-point step over whole numbers.
#[inline(always)]
fn integer_step(x: Numbers) -> Row {
    let s = from_fn(|n| x[n] + x[7 - n]);
    let d = from_fn(|n| x[n] - x[7 - n]);
    [
        combination(s, [4, 4, 4, 4]),
        combination(d, [1, 3, 5, 7]),
        combination(s, [2, 6, 10, 14]),
        combination(d, [3, 9, 15, 21]),
        combination(s, [4, 12, 20, 28]),
        combination(d, [5, 15, 25, 35]),
        combination(s, [6, 18, 30, 42]),
        combination(d, [7, 21, 35, 49]),
    ]
}

/// s_n + d_n at place n, and s_n - d_n at place 7 - n.
#[inline(always)]
fn mirrored(s: [i32; 4], d: [i32; 4]) -> Numbers {
    from_fn(|n| {
        if n < 4 {
            s[n] + d[n]
        } else {
            s[7 - n] - d[7 - n]
        }
    })
}

#[inline(always)]
fn combination_back(x: [Element; 4], m: [usize; 4]) -> i32 {
    part(x[0], m[0]) + part(x[1], m[1]) + part(x[2], m[2]) + part(x[3], m[3])
}

/// The transpose of the step over whole numbers.
#[inline(always)]
fn integer_step_back(x: Row) -> Numbers {
    let even = [x[0], x[2], x[4], x[6]];
    let odd = [x[1], x[3], x[5], x[7]];
    let s = [
        combination_back(even, [4, 2, 4, 6]),
        combination_back(even, [4, 6, 12, 18]),
        combination_back(even, [4, 10, 20, 30]),
        combination_back(even, [4, 14, 28, 42]),
    ];
    let d = [
        combination_back(odd, [1, 3, 5, 7]),
        combination_back(odd, [3, 9, 15, 21]),
        combination_back(odd, [5, 15, 25, 35]),
        combination_back(odd, [7, 21, 35, 49]),
    ];
    mirrored(s, d)
}

/// What the components K of a row add to its step.
#[inline(always)]
fn class_step<const K: usize>(x: Numbers) -> Row {
    integer_step(x).map(Element::times::<K>)
}

/// 16 times the components K of the row whose step this is.
#[inline(always)]
fn class_step_back<const K: usize>(row: Row) -> Numbers {
    integer_step_back(row.map(Element::times::<K>))
}

/// A column of samples, from 16 times p0 + p1, p0 - p1, q0, q1, d0, d1, d2 and d3: rows 0 and 4 hold the first two, row 2
/// the next two, and row 1 its differences. The sums s here are 64 times those of the column.
#[inline(always)]
fn column_back(x: Numbers) -> Numbers {
    let (p0, p1, q0, q1) = (x[0] + x[1], x[0] - x[1], 2 * x[2], 2 * x[3]);
    let s = [p0 + q0, p1 + q1, p1 - q1, p0 - q0];
    let d: [i32; 4] = from_fn(|n| 4 * x[4 + n]);
    mirrored(s, d).map(|x| x >> 7)
}

#[inline(always)]
fn sum(x: Row, y: Row) -> Row {
    from_fn(|v| x[v] + y[v])
}

/// The element with c_5k in place of each c_k.
#[inline(always)]
fn conjugate(Element(u): Element) -> Element {
    Element([u[0], -u[3], u[6], u[7], -u[4], u[1], -u[2], u[5]])
}

/// Row 2 from row 6, row 5 from row 1, row 7 from row 5, and row 3 from row 7.
#[inline(always)]
fn conjugate_row(row: Row) -> Row {
    let e = row.map(conjugate);
    [-e[0], -e[3], e[6], e[7], -e[4], e[1], -e[2], e[5]]
}

/// The step over each column.
#[inline(always)]
fn columns(samples: &Samples) -> [Row; 8] {
    let column = |j| integer_step(from_fn(|i| samples[8 * i + j]));
    [
        column(0),
        column(1),
        column(2),
        column(3),
        column(4),
        column(5),
        column(6),
        column(7),
    ]
}

/// The passes by class and conjugation. Lists are written out where a loop would stay a loop: with every index known,
/// the compiler keeps no array.
pub struct ByClass;

impl Passes for ByClass {
    /// Rows 0 to 4.
    const READ: usize = 5 * 64;

    fn transform(samples: &Samples, elements: &mut Elements) {
        let x = columns(samples);
        let numbers = |u: usize, k: usize| from_fn(|j| x[j][u].0[k]);
        store(&class_step::<4>(numbers(0, 4)), 0, elements);
        store(&class_step::<4>(numbers(4, 4)), 4, elements);
        let row6 = sum(
            class_step::<2>(numbers(6, 2)),
            class_step::<6>(numbers(6, 6)),
        );
        store(&row6, 6, elements);
        store(&conjugate_row(row6), 2, elements);
        let row1 = sum(
            sum(
                class_step::<1>(numbers(1, 1)),
                class_step::<3>(numbers(1, 3)),
            ),
            sum(
                class_step::<5>(numbers(1, 5)),
                class_step::<7>(numbers(1, 7)),
            ),
        );
        store(&row1, 1, elements);
        let row5 = conjugate_row(row1);
        store(&row5, 5, elements);
        let row7 = conjugate_row(row5);
        store(&row7, 7, elements);
        store(&conjugate_row(row7), 3, elements);
    }

    fn restored(elements: &Elements) -> Samples {
        let row = |u| row_at(elements, u);
        let rows = [
            class_step_back::<4>(row(0)),
            class_step_back::<4>(row(4)),
            class_step_back::<2>(row(2)),
            class_step_back::<6>(row(2)),
            class_step_back::<1>(row(1)),
            class_step_back::<3>(row(1)),
            class_step_back::<5>(row(1)),
            class_step_back::<7>(row(1)),
        ];
        let mut block = [0; PLACES];
        for j in 0..8 {
            let column = column_back(from_fn(|i| rows[i][j]));
            for (i, x) in column.into_iter().enumerate() {
                block[8 * i + j] = x;
            }
        }
        block
    }
}
