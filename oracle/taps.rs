// The FIR designs and ready-made taps by the published fir.rs, beside 01's checks; what the forms of 02's Q-3 add is in current.rs.
use crate::core::filters::fir::{design_fir_lp, FirFilter, WindowType};
use crate::current::{Design, Filter};
use crate::elementary::Port;
use crate::refusal;
use crate::text::push_floats;
use std::collections::VecDeque;

const MOST: usize = 64;
const READY_MADE: usize = 4;

/// The filter, and the samples that it holds: Clouded while one of them is not finite.
struct Fir<const N: usize> {
    filter: FirFilter<Port, N>,
    held: VecDeque<f64>,
}
impl<const N: usize> Filter for Fir<N> {
    fn step(&mut self, x: f64) -> (f64, bool) {
        if self.held.len() == N {
            self.held.pop_front();
        }
        self.held.push_back(x);
        (self.filter.update(Port(x)).0, self.held.iter().any(|s| !s.is_finite()))
    }
    fn reset(&mut self) {
        self.filter.reset();
        self.held.clear();
    }
}

/// A window and its code.
pub fn window(name: &[u8]) -> Option<(WindowType, usize)> {
    match name {
        b"rectangular" => Some((WindowType::Rectangular, 0)),
        b"hamming" => Some((WindowType::Hamming, 1)),
        b"hanning" => Some((WindowType::Hanning, 2)),
        b"blackman" => Some((WindowType::Blackman, 3)),
        _ => None,
    }
}

/// What 01 says of a design: 0, or the number. The Rust has no most number of taps.
fn by_01(taps: usize, cutoff: f64) -> u8 {
    match () {
        _ if taps == 0 || taps > MOST => 1,
        _ if cutoff.is_nan() || cutoff <= 0.0 || cutoff >= 0.5 => 2,
        _ => 0,
    }
}

/// The function at each number of taps.
macro_rules! by_taps {
    ($n:expr, $function:ident $args:tt) => {
        by_taps!($n, $function $args, 0 1 2 3 4 5 6 7 8 9 10 11 12 13 14 15 16 17 18 19 20 21 22 23 24 25 26 27 28 29 30 31 32
            33 34 35 36 37 38 39 40 41 42 43 44 45 46 47 48 49 50 51 52 53 54 55 56 57 58 59 60 61 62 63 64)
    };
    ($n:expr, $function:ident $args:tt, $($taps:literal)*) => {
        match $n {
            $( $taps => $function::<$taps> $args, )*
            _ => unreachable!(),
        }
    };
}

type Made = (Vec<u8>, Box<dyn Filter>);

fn made<const N: usize>(filter: FirFilter<Port, N>, code: usize) -> Made {
    let mut text = format!("taps {N} {code}").into_bytes();
    push_floats(&mut text, filter.coeffs().iter().map(|t| t.0));
    (text, Box::new(Fir { filter, held: VecDeque::new() }))
}

fn designed<const N: usize>(cutoff: f64, window: WindowType, code: usize) -> Result<Made, u8> {
    design_fir_lp::<Port, N>(Port(cutoff), window).map(|filter| made(filter, code)).map_err(refusal)
}

fn ready_made<const N: usize>(v: &[f64]) -> Made {
    made(FirFilter::<Port, N>::from_coeffs(std::array::from_fn(|i| Port(v[i]))), READY_MADE)
}

/// The Rust's own design beside 01's checks.
pub fn design(taps: usize, cutoff: f64, (window, code): (WindowType, usize)) -> Design {
    let refusal = by_01(taps, cutoff);
    if taps > MOST {
        return Design { refusal, rust: None, made: None };
    }
    let made = by_taps!(taps, designed(cutoff, window, code));
    let rust = made.as_ref().err().copied().unwrap_or(0);
    Design { refusal, rust: (!cutoff.is_nan()).then_some(rust), made: made.ok() }
}

/// The Rust takes any number of ready-made taps.
pub fn from_coeffs(v: &[f64]) -> Design {
    if v.is_empty() || v.len() > MOST {
        return Design { refusal: 1, rust: None, made: None };
    }
    Design { refusal: 0, rust: Some(0), made: Some(by_taps!(v.len(), ready_made(v))) }
}
