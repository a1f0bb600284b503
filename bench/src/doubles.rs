//! The transform in doubles, as one would write it if it had not to be exact: the 8-point factorisation of Loeffler,
//! Ligtenberg and Moschytz, eleven products a step, rows then columns. A step makes √8 times the DCT values of a row,
//! so that two make eighths.
use std::array::from_fn;

/// Eight rows of eight.
pub type Rows = [[f64; 8]; 8];

/// √2 times sums of cos(kπ/16).
const C6: f64 = 0.541196100146197;
const C2_LESS_C6: f64 = 0.7653668647301796;
const C2_AND_C6: f64 = 1.8477590650225735;
const C3: f64 = 1.1758756024193586;
const ODD: [f64; 4] = [
    0.29863133620137045,
    2.053119868637347,
    3.072711026845665,
    1.501321110071461,
];
const C3_LESS_C7: f64 = 0.8999762231364157;
const C1_AND_C3: f64 = 2.5629154477415064;
const C3_AND_C5: f64 = 1.9615705608064609;
const C3_LESS_C5: f64 = 0.39018064403225655;

/// The odd part, which is its own transpose: from the differences 3, 2, 1, 0 to the frequencies 7, 5, 3, 1, or back.
#[inline]
fn odd(d: [f64; 4]) -> [f64; 4] {
    let z = (d[0] + d[2] + d[1] + d[3]) * C3;
    let z1 = (d[0] + d[3]) * -C3_LESS_C7;
    let z2 = (d[1] + d[2]) * -C1_AND_C3;
    let z3 = z - (d[0] + d[2]) * C3_AND_C5;
    let z4 = z - (d[1] + d[3]) * C3_LESS_C5;
    [
        d[0] * ODD[0] + z1 + z3,
        d[1] * ODD[1] + z2 + z4,
        d[2] * ODD[2] + z2 + z3,
        d[3] * ODD[3] + z1 + z4,
    ]
}

#[inline]
fn step(x: [f64; 8]) -> [f64; 8] {
    let s = [x[0] + x[7], x[1] + x[6], x[2] + x[5], x[3] + x[4]];
    let [o7, o5, o3, o1] = odd([x[3] - x[4], x[2] - x[5], x[1] - x[6], x[0] - x[7]]);
    let (p0, p1, q0, q1) = (s[0] + s[3], s[1] + s[2], s[0] - s[3], s[1] - s[2]);
    let z = (q0 + q1) * C6;
    [
        p0 + p1,
        o1,
        z + q0 * C2_LESS_C6,
        o3,
        p0 - p1,
        o5,
        z - q1 * C2_AND_C6,
        o7,
    ]
}

#[inline]
fn step_back(y: [f64; 8]) -> [f64; 8] {
    let z = (y[2] + y[6]) * C6;
    let (q0, q1) = (z + y[2] * C2_LESS_C6, z - y[6] * C2_AND_C6);
    let (p0, p1) = (y[0] + y[4], y[0] - y[4]);
    let e = [p0 + q0, p1 + q1, p1 - q1, p0 - q0];
    let [o3, o2, o1, o0] = odd([y[7], y[5], y[3], y[1]]);
    [
        e[0] + o0,
        e[1] + o1,
        e[2] + o2,
        e[3] + o3,
        e[3] - o3,
        e[2] - o2,
        e[1] - o1,
        e[0] - o0,
    ]
}

/// A step over each row, and then over each column.
#[inline]
fn two_passes(x: &mut Rows, step: fn([f64; 8]) -> [f64; 8]) {
    for row in x.iter_mut() {
        *row = step(*row);
    }
    for j in 0..8 {
        let column = step([
            x[0][j], x[1][j], x[2][j], x[3][j], x[4][j], x[5][j], x[6][j], x[7][j],
        ]);
        for (row, y) in x.iter_mut().zip(column) {
            row[j] = y;
        }
    }
}

/// The nearest whole number, for |x| below 2^31. Around 1.5 · 2^52 doubles are whole, and the low bits of such a sum
/// are the number in two's complement. `f64::round` would be a call: x86-64's baseline has no instruction for it.
#[inline]
fn nearest(x: f64) -> i32 {
    (x + 6755399441055744.0).to_bits() as i32
}

/// Eight times the DCT values of a block, not rounded.
pub fn forward(samples: &[i32; 64]) -> Rows {
    let mut x = from_fn(|i| from_fn(|j| f64::from(samples[8 * i + j])));
    two_passes(&mut x, step);
    x
}

/// Coefficients in eighths.
pub fn round(eighths: &Rows) -> [i32; 64] {
    from_fn(|n| nearest(eighths[n / 8][n % 8]))
}

/// The block of eight times its DCT values.
pub fn back(eighths: &Rows) -> [i32; 64] {
    let mut x = *eighths;
    two_passes(&mut x, step_back);
    from_fn(|n| nearest(x[n / 8][n % 8] / 64.0))
}
