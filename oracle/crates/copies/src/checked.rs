//! A double that notes whether every + - * / on it was exact, to decide where the Rust as given is compared.
//!
//! The checked copies are flows.rs itself with this type under the name `f64`: what is judged are the operations
//! that the code really does. An operation is exact where the rounded result equals the true one. Infinite operands
//! round nothing and count as exact; a finite operation that overflows does not.
//!
//! `+=` is asked for more: the Rust as given adds up a drain in hash order, so the sum has to be exact in every order. A
//! sum remembers its grain, the lowest bit among everything ever added to it. While the sum stays below 2^53 grains, each
//! partial sum in each order is a whole number of grains below 2^53, hence a double, hence exact.

use std::cell::Cell;
use std::cmp::Ordering;
use std::ops::{Add, AddAssign, Div, Mul, Sub, SubAssign};

thread_local!(static INEXACT: Cell<bool> = const { Cell::new(false) });

/// Whether anything was inexact since this was last asked.
pub fn take_inexact() -> bool {
    INEXACT.replace(false)
}

fn note(exact: bool) {
    if !exact {
        INEXACT.set(true);
    }
}

#[derive(Clone, Copy, Debug, Default)]
pub struct Checked {
    value: f64,
    /// The grain of a sum; none for a number that is not one.
    grain: Option<i32>,
}

pub fn inward(value: f64) -> Checked {
    Checked::literal(value)
}

pub fn outward(number: Checked) -> f64 {
    number.value
}

/// What ` as f64` becomes. Whole numbers up to 2^53 are doubles.
pub trait AsF64 {
    fn as_f64(self) -> Checked;
}

impl AsF64 for u64 {
    fn as_f64(self) -> Checked {
        note(self <= 1 << 53);
        Checked::literal(self as f64)
    }
}

impl AsF64 for usize {
    fn as_f64(self) -> Checked {
        (self as u64).as_f64()
    }
}

impl Checked {
    pub const INFINITY: Checked = Checked::literal(f64::INFINITY);
    pub const EPSILON: Checked = Checked::literal(f64::EPSILON);

    pub const fn literal(value: f64) -> Checked {
        Checked { value, grain: None }
    }

    pub fn min(self, other: Checked) -> Checked {
        Checked::literal(self.value.min(other.value))
    }

    pub fn max(self, other: Checked) -> Checked {
        Checked::literal(self.value.max(other.value))
    }

    pub fn abs(self) -> Checked {
        Checked::literal(self.value.abs())
    }

    pub fn is_finite(self) -> bool {
        self.value.is_finite()
    }

    pub fn total_cmp(&self, other: &Checked) -> Ordering {
        self.value.total_cmp(&other.value)
    }

    fn grain(self) -> i32 {
        self.grain.unwrap_or_else(|| lowest_bit(self.value))
    }
}

impl PartialEq for Checked {
    fn eq(&self, other: &Checked) -> bool {
        self.value == other.value
    }
}

impl PartialOrd for Checked {
    fn partial_cmp(&self, other: &Checked) -> Option<Ordering> {
        self.value.partial_cmp(&other.value)
    }
}

impl Add for Checked {
    type Output = Checked;
    fn add(self, other: Checked) -> Checked {
        Checked::literal(sum(self.value, other.value))
    }
}

impl Sub for Checked {
    type Output = Checked;
    fn sub(self, other: Checked) -> Checked {
        Checked::literal(sum(self.value, -other.value))
    }
}

impl SubAssign for Checked {
    fn sub_assign(&mut self, other: Checked) {
        *self = *self - other;
    }
}

impl AddAssign for Checked {
    fn add_assign(&mut self, addend: Checked) {
        let value = sum(self.value, addend.value);
        let grain = self.grain().min(addend.grain());
        note(highest_bit(value) < grain + 53);
        *self = Checked { value, grain: Some(grain) };
    }
}

impl Mul for Checked {
    type Output = Checked;
    fn mul(self, other: Checked) -> Checked {
        let product = self.value * other.value;
        if self.is_finite() && other.is_finite() {
            note(product.is_finite() && is_product(product, self.value, other.value));
        }
        Checked::literal(product)
    }
}

impl Div for Checked {
    type Output = Checked;
    fn div(self, other: Checked) -> Checked {
        let quotient = self.value / other.value;
        if self.is_finite() && other.is_finite() {
            note(quotient.is_finite() && is_product(self.value, quotient, other.value));
        }
        Checked::literal(quotient)
    }
}

/// The sum, noting a rounding: the part lost is found by taking the two addends off the sum again (Knuth's two-sum).
fn sum(a: f64, b: f64) -> f64 {
    let sum = a + b;
    if a.is_finite() && b.is_finite() {
        let b_kept = sum - a;
        let a_kept = sum - b_kept;
        note(sum.is_finite() && a - a_kept == 0.0 && b - b_kept == 0.0);
    }
    sum
}

/// Whether a = b * c in whole numbers: each double is m * 2^e with m below 2^53.
fn is_product(a: f64, b: f64, c: f64) -> bool {
    let ((ma, ea), (mb, eb), (mc, ec)) = (parts(a), parts(b), parts(c));
    let product = u128::from(mb) * u128::from(mc);
    if ma == 0 || product == 0 {
        return ma == 0 && product == 0;
    }
    odd_part(ma.into(), ea) == odd_part(product, eb + ec)
}

/// |value| as m * 2^e.
fn parts(value: f64) -> (u64, i32) {
    let bits = value.to_bits();
    let exponent = (bits >> 52 & 0x7ff) as i32;
    let fraction = bits & ((1 << 52) - 1);
    match exponent {
        0 => (fraction, -1074),
        _ => (fraction | 1 << 52, exponent - 1075),
    }
}

/// The same value with an odd m.
fn odd_part(m: u128, e: i32) -> (u128, i32) {
    let zeros = m.trailing_zeros();
    (m >> zeros, e + zeros as i32)
}

/// Exponent of the lowest bit set; zero has none and never refines a grain.
fn lowest_bit(value: f64) -> i32 {
    let (m, e) = parts(value);
    if m == 0 { i32::MAX / 2 } else { e + m.trailing_zeros() as i32 }
}

/// Exponent of the highest bit set.
fn highest_bit(value: f64) -> i32 {
    let (m, e) = parts(value);
    if m == 0 { i32::MIN / 2 } else { e + 63 - m.leading_zeros() as i32 }
}

#[cfg(test)]
mod tests {
    use super::*;

    fn inexact<T>(work: impl Fn() -> T) -> bool {
        take_inexact();
        let _ = work();
        take_inexact()
    }

    fn n(value: f64) -> Checked {
        Checked::literal(value)
    }

    #[test]
    fn exact_operations_pass() {
        assert!(!inexact(|| [n(12.0) / n(3.0), n(0.5) * n(10.0), n(5.0) - n(12.25), n(2f64.powi(52)) + n(1.0)]));
        assert!(!inexact(|| [n(5.0) / Checked::INFINITY, Checked::INFINITY * n(3.0), n(0.0) * n(7.0)]));
    }

    #[test]
    fn roundings_are_noted() {
        assert!(inexact(|| n(1.0) / n(3.0)));
        assert!(inexact(|| n(0.1) * n(0.1)));
        assert!(inexact(|| n(2f64.powi(53)) + n(1.0)));
        assert!(inexact(|| n(f64::MAX) * n(2.0)));
        // Lost below the least subnormal, where a fused product would lose the rest too.
        assert!(inexact(|| n(f64::from_bits(3)) / n(2.0)));
        assert!(inexact(|| n(1e-200) * n(1e-200)));
    }

    #[test]
    fn sums_must_be_exact_in_every_order() {
        let sum_of = |addends: [f64; 3]| {
            let mut sum = n(0.0);
            addends.into_iter().for_each(|a| sum += n(a));
        };
        // 1 + 1 + 2^53 is exact as it stands, 2^53 + 1 + 1 is not.
        assert!(inexact(|| sum_of([1.0, 1.0, 2f64.powi(53)])));
        assert!(!inexact(|| sum_of([1.0, 1.0, 2f64.powi(52)])));
        assert!(!inexact(|| sum_of([0.25, 0.5, 1024.0])));
    }
}
