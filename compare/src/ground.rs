//! Document 01's sine, cosine and atan2, written from its words.
//! Every step is one rounded operation, in the order that the document gives.

use std::f64::consts::PI;

/// (-1)^k/(2k+1)!, k from 0 to 8.
const SINE: [f64; 9] = alternating(factorials(1));
/// (-1)^k/(2k)!, k from 0 to 9.
const COSINE: [f64; 10] = alternating(factorials(0));
/// (-1)^k/(2k+1), k from 0 to 20.
const ARCTANGENT: [f64; 21] = alternating(odd_numbers());

/// Sine of radians.
pub fn sin(x: f64) -> f64 {
    if !x.is_finite() {
        return f64::NAN;
    }
    let (quarter, s, c) = reduced(x);
    let value = [s, c, -s, -c, s][quarter];
    if x.is_sign_negative() { -value } else { value }
}

/// Cosine of radians.
pub fn cos(x: f64) -> f64 {
    if !x.is_finite() {
        return f64::NAN;
    }
    let (quarter, s, c) = reduced(x);
    [c, -s, -c, s, c][quarter]
}

/// Sine and cosine of radians, from one reduction.
pub fn sin_cos(x: f64) -> [f64; 2] {
    if !x.is_finite() {
        return [f64::NAN; 2];
    }
    let (quarter, s, c) = reduced(x);
    let [sine, cosine] = [[s, c], [c, -s], [-s, -c], [-c, s], [s, c]][quarter];
    [if x.is_sign_negative() { -sine } else { sine }, cosine]
}

/// The angle from the x axis to the point (x, y).
pub fn atan2(y: f64, x: f64) -> f64 {
    if y.is_nan() || x.is_nan() {
        return f64::NAN;
    }
    let t = slope(y.abs(), x.abs());
    let (u, base) = if t > 0.4140625 { ((t - 1.0) / (t + 1.0), PI / 4.0) } else { (t, 0.0) };
    let mut angle = base + u * horner(u * u, &ARCTANGENT);
    if y.abs() > x.abs() {
        angle = PI / 2.0 - angle;
    }
    if x.is_sign_negative() {
        angle = PI - angle;
    }
    if y.is_sign_negative() { -angle } else { angle }
}

/// j, S and C of a finite angle's magnitude.
fn reduced(x: f64) -> (usize, f64, f64) {
    let r = x.abs() % (2.0 * PI);
    let ends = [0.25 * PI, 0.75 * PI, 1.25 * PI, 1.75 * PI];
    let j = ends.iter().position(|end| r < *end).unwrap_or(4);
    let y = r - j as f64 * (PI / 2.0);
    let z = y * y;
    (j, y * horner(z, &SINE), horner(z, &COSINE))
}

/// The lesser magnitude over the greater.
fn slope(a: f64, b: f64) -> f64 {
    if a == 0.0 && b == 0.0 {
        0.0
    } else if a.is_infinite() && b.is_infinite() {
        1.0
    } else if a < b {
        a / b
    } else {
        b / a
    }
}

/// Horner's rule from the last coefficient down: product, then sum.
fn horner<const N: usize>(z: f64, coefficients: &[f64; N]) -> f64 {
    let mut value = coefficients[N - 1];
    for coefficient in coefficients[..N - 1].iter().rev() {
        value = value * z + coefficient;
    }
    value
}

/// One quotient for each divisor, signs taking turns from plus.
const fn alternating<const N: usize>(divisors: [u64; N]) -> [f64; N] {
    let mut quotients = [0.0; N];
    let mut k = 0;
    while k < N {
        let sign = if k % 2 == 0 { 1.0 } else { -1.0 };
        quotients[k] = sign / divisors[k] as f64;
        k += 1;
    }
    quotients
}

/// (2k + first)!, all below 2^53 here and so exact as floats.
const fn factorials<const N: usize>(first: u64) -> [u64; N] {
    let mut products = [1; N];
    let mut k = 1;
    while k < N {
        let top = 2 * k as u64 + first;
        products[k] = products[k - 1] * (top - 1) * top;
        k += 1;
    }
    products
}

/// 2k + 1.
const fn odd_numbers<const N: usize>() -> [u64; N] {
    let mut numbers = [1; N];
    let mut k = 1;
    while k < N {
        numbers[k] = 2 * k as u64 + 1;
        k += 1;
    }
    numbers
}
