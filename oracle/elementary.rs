// A scalar with f64 arithmetic whose elementary functions are those of 01 "Elementary functions", with sinh by 02's Q-4, written
// from their text.
use crate::core::scalar::ControlScalar;
use num_traits::{Float, Num, NumCast, One, ToPrimitive, Zero};
use std::fmt;
use std::num::FpCategory;
use std::ops::*;

fn b(bits: u64) -> f64 {
    f64::from_bits(bits)
}

/// Nearest whole number, ties to even.
fn nearest(x: f64) -> f64 {
    let n = x.round_ties_even();
    if n == 0.0 { 0.0 } else { n }
}

fn horner(s: f64, coefficients: &[f64]) -> f64 {
    let (last, rest) = coefficients.split_last().unwrap();
    rest.iter().rev().fold(*last, |sum, c| c + s * sum)
}

/// Series as constants: of each coefficient, one division.
const fn factorial(k: usize) -> f64 {
    let (mut product, mut i) = (1u64, 2);
    while i <= k {
        product *= i as u64;
        i += 1;
    }
    product as f64
}
const fn alternating(first: usize) -> [f64; 8] {
    let (mut series, mut i) = ([0.0; 8], 0);
    while i < 8 {
        let c = 1.0 / factorial(first + 2 * i);
        series[i] = if i % 2 == 0 { -c } else { c };
        i += 1;
    }
    series
}
const fn exponential() -> [f64; 14] {
    let (mut series, mut j) = ([0.0; 14], 0);
    while j < 14 {
        series[j] = 1.0 / factorial(j);
        j += 1;
    }
    series
}
const fn logarithm() -> [f64; 11] {
    let (mut series, mut j) = ([0.0; 11], 0);
    while j < 11 {
        series[j] = 1.0 / (2 * j + 1) as f64;
        j += 1;
    }
    series
}
const fn hyperbolic_sine() -> [f64; 8] {
    let (mut series, mut i) = ([0.0; 8], 0);
    while i < 8 {
        series[i] = 1.0 / factorial(3 + 2 * i);
        i += 1;
    }
    series
}
const SINE: [f64; 8] = alternating(3);
const COSINE: [f64; 8] = alternating(2);
const EXPONENTIAL: [f64; 14] = exponential();
const LOGARITHM: [f64; 11] = logarithm();
const HYPERBOLIC_SINE: [f64; 8] = hyperbolic_sine();

/// q modulo 4, S and C; nothing for an angle that is not finite or above 128. Never inlined, nor exp, ln and sinh, so that
/// the compiler does not work out a design's constant angles beforehand and bench/ measures the functions.
#[inline(never)]
fn turn(x: f64) -> Option<(i64, f64, f64)> {
    if !(x.abs() <= 128.0) {
        return None;
    }
    let q = nearest(x * b(0x3FE45F306DC9C883));
    let r = (x - q * b(0x3FF921FB54400000)) - q * b(0x3DD0B4611A626331);
    let s = r * r;
    let sine = r + (r * s) * horner(s, &SINE);
    let cosine = 1.0 + s * horner(s, &COSINE);
    Some(((q as i64).rem_euclid(4), sine, cosine))
}

pub fn sin(x: f64) -> f64 {
    match turn(x) {
        None => f64::NAN,
        Some((0, s, _)) => s,
        Some((1, _, c)) => c,
        Some((2, s, _)) => -s,
        Some((_, _, c)) => -c,
    }
}

pub fn cos(x: f64) -> f64 {
    match turn(x) {
        None => f64::NAN,
        Some((0, _, c)) => c,
        Some((1, s, _)) => -s,
        Some((2, _, c)) => -c,
        Some((_, s, _)) => s,
    }
}

pub fn tan(x: f64) -> f64 {
    sin(x) / cos(x)
}

#[inline(never)]
pub fn exp(x: f64) -> f64 {
    if x > 709.0 {
        return f64::INFINITY;
    }
    if x < -708.0 {
        return 0.0;
    }
    if x.is_nan() {
        return f64::NAN;
    }
    let k = nearest(x / b(0x3FE62E42FEFA39EF));
    let r = (x - k * b(0x3FE62E42FEE00000)) - k * b(0x3DEA39EF35793C76);
    horner(r, &EXPONENTIAL) * b(((k as i64 + 1023) as u64) << 52)
}

pub fn pow10(y: f64) -> f64 {
    exp(y * b(0x40026BB1BBB55516))
}

#[inline(never)]
pub fn ln(x: f64) -> f64 {
    if x.is_nan() || x < 0.0 {
        return f64::NAN;
    }
    if x == 0.0 {
        return f64::NEG_INFINITY;
    }
    if x == f64::INFINITY {
        return x;
    }
    let (mut m, mut e) = (x, 0.0);
    while m >= 2.0 {
        m *= 0.5;
        e += 1.0;
    }
    while m < 1.0 {
        m *= 2.0;
        e -= 1.0;
    }
    if m > b(0x3FF6A09E667F3BCD) {
        m *= 0.5;
        e += 1.0;
    }
    let f = (m - 1.0) / (m + 1.0);
    let s = f * f;
    e * b(0x3FE62E42FEE00000) + ((2.0 * f) * horner(s, &LOGARITHM) + e * b(0x3DEA39EF35793C76))
}

/// Below 1 in magnitude by 02's Q-4, elsewhere (NaN included) by 01.
#[inline(never)]
pub fn sinh(a: f64) -> f64 {
    if a.abs() < 1.0 {
        let s = a * a;
        return a + (a * s) * horner(s, &HYPERBOLIC_SINE);
    }
    (exp(a) - exp(-a)) * 0.5
}

pub fn cosh(a: f64) -> f64 {
    (exp(a) + exp(-a)) * 0.5
}

/// The scalar. Its Debug form is the bit pattern, so that the private fields of the published types can be read.
#[derive(Clone, Copy, PartialEq, PartialOrd, Default)]
pub struct Port(pub f64);

impl fmt::Debug for Port {
    fn fmt(&self, f: &mut fmt::Formatter) -> fmt::Result {
        if self.0.is_nan() { f.write_str("NaN") } else { write!(f, "{:016X}", self.0.to_bits()) }
    }
}
impl fmt::Display for Port {
    fn fmt(&self, f: &mut fmt::Formatter) -> fmt::Result {
        fmt::Debug::fmt(self, f)
    }
}

macro_rules! operator {
    ($($name:ident $method:ident $op:tt)*) => { $(
        impl $name for Port {
            type Output = Port;
            fn $method(self, o: Port) -> Port { Port(self.0 $op o.0) }
        }
    )* };
}
operator! { Add add + Sub sub - Mul mul * Div div / Rem rem % }
macro_rules! assign {
    ($($name:ident $method:ident $op:tt)*) => { $(
        impl $name for Port {
            fn $method(&mut self, o: Port) { self.0 $op o.0 }
        }
    )* };
}
assign! { AddAssign add_assign += SubAssign sub_assign -= MulAssign mul_assign *= }
impl Neg for Port {
    type Output = Port;
    fn neg(self) -> Port {
        Port(-self.0)
    }
}
impl Zero for Port {
    fn zero() -> Port {
        Port(0.0)
    }
    fn is_zero(&self) -> bool {
        self.0 == 0.0
    }
}
impl One for Port {
    fn one() -> Port {
        Port(1.0)
    }
}
impl Num for Port {
    type FromStrRadixErr = ();
    fn from_str_radix(_: &str, _: u32) -> Result<Port, ()> {
        Err(())
    }
}
impl ToPrimitive for Port {
    fn to_i64(&self) -> Option<i64> {
        None
    }
    fn to_u64(&self) -> Option<u64> {
        None
    }
}
impl NumCast for Port {
    fn from<T: ToPrimitive>(_: T) -> Option<Port> {
        None
    }
}

/// A method that the published files do not use.
macro_rules! unused {
    ($($name:ident ( $($arg:ident : $kind:ty),* ) -> $out:ty;)*) => { $(
        fn $name(self $(, $arg: $kind)*) -> $out { $( let _ = $arg; )* unimplemented!(stringify!($name)) }
    )* };
}
impl Float for Port {
    fn nan() -> Port {
        Port(f64::NAN)
    }
    fn infinity() -> Port {
        Port(f64::INFINITY)
    }
    fn neg_infinity() -> Port {
        Port(f64::NEG_INFINITY)
    }
    fn neg_zero() -> Port {
        Port(-0.0)
    }
    fn min_value() -> Port {
        Port(f64::MIN)
    }
    fn min_positive_value() -> Port {
        Port(f64::MIN_POSITIVE)
    }
    fn max_value() -> Port {
        Port(f64::MAX)
    }
    fn is_nan(self) -> bool {
        self.0.is_nan()
    }
    fn is_infinite(self) -> bool {
        self.0.is_infinite()
    }
    fn is_finite(self) -> bool {
        self.0.is_finite()
    }
    fn is_normal(self) -> bool {
        self.0.is_normal()
    }
    fn classify(self) -> FpCategory {
        self.0.classify()
    }
    fn is_sign_positive(self) -> bool {
        self.0.is_sign_positive()
    }
    fn is_sign_negative(self) -> bool {
        self.0.is_sign_negative()
    }
    /// Clears the sign bit.
    fn abs(self) -> Port {
        Port(self.0.abs())
    }
    /// x where x > other, else other: 01's max(x, 0).
    fn max(self, other: Port) -> Port {
        if self.0 > other.0 { self } else { other }
    }
    /// Correctly rounded.
    fn sqrt(self) -> Port {
        Port(self.0.sqrt())
    }
    fn exp(self) -> Port {
        Port(exp(self.0))
    }
    fn ln(self) -> Port {
        Port(ln(self.0))
    }
    fn sin(self) -> Port {
        Port(sin(self.0))
    }
    fn cos(self) -> Port {
        Port(cos(self.0))
    }
    fn tan(self) -> Port {
        Port(tan(self.0))
    }
    fn sinh(self) -> Port {
        Port(sinh(self.0))
    }
    fn cosh(self) -> Port {
        Port(cosh(self.0))
    }
    /// 001 raises 10 to a power, and nothing else.
    fn powf(self, n: Port) -> Port {
        assert!(self.0 == 10.0);
        Port(pow10(n.0))
    }
    unused! {
        floor() -> Port; ceil() -> Port; round() -> Port; trunc() -> Port; fract() -> Port; signum() -> Port;
        mul_add(a: Port, b: Port) -> Port; recip() -> Port; powi(n: i32) -> Port; exp2() -> Port; log(base: Port) -> Port; log2() -> Port;
        log10() -> Port; min(other: Port) -> Port; abs_sub(other: Port) -> Port; cbrt() -> Port; hypot(other: Port) -> Port; asin() -> Port;
        acos() -> Port; atan() -> Port; atan2(other: Port) -> Port; sin_cos() -> (Port, Port); exp_m1() -> Port; ln_1p() -> Port; tanh() -> Port;
        asinh() -> Port; acosh() -> Port; atanh() -> Port; integer_decode() -> (u64, i16, i8);
    }
}

impl ControlScalar for Port {
    const ZERO: Port = Port(0.0);
    const ONE: Port = Port(1.0);
    const TWO: Port = Port(2.0);
    const HALF: Port = Port(0.5);
    const PI: Port = Port(std::f64::consts::PI);
    const EPSILON: Port = Port(f64::EPSILON);
    fn from_f64(v: f64) -> Port {
        Port(v)
    }
    fn to_f64(self) -> f64 {
        self.0
    }
}
