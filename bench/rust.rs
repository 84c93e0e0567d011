// The Rust side of the bench: the published butterworth.rs, chebyshev.rs, fir.rs and scalar.rs, unchanged, under the oracle's
// scalar, whose elementary functions are the port's. Built twice, as the crates rust_ring and rust_deque, which differ in
// the stand-in for heapless alone. Everything generic is instantiated here, so that updates are inlined into the loops. The
// channel classes and the rival's blocks, which the published Rust has not, are the oracle's.
#[allow(dead_code)]
mod core;
#[allow(dead_code)]
mod elementary;
mod j211;
mod rival;

use crate::core::filters::butterworth::{design_butterworth_lp, ButterworthLp};
use crate::core::filters::chebyshev::design_chebyshev1_lp;
use crate::core::filters::fir::FirFilter;
use elementary::Port;
use std::fmt::Debug;
use std::hint::black_box;

/// A published filter that is fed samples.
pub trait Running {
    /// Its update in a loop.
    fn all(&mut self, input: &[f64], output: &mut [f64]);
    /// The same, each update behind a call.
    fn calls(&mut self, input: &[f64], output: &mut [f64]);
    /// Its update in a loop over one slice, whose samples become the answers.
    fn in_place(&mut self, buffer: &mut [f64]);
}

macro_rules! running {
    ($filter:ident) => {
        impl<const N: usize> Running for $filter<Port, N> {
            fn all(&mut self, input: &[f64], output: &mut [f64]) {
                for (x, y) in input.iter().zip(output) {
                    *y = self.update(Port(*x)).0;
                }
            }
            fn calls(&mut self, input: &[f64], output: &mut [f64]) {
                #[inline(never)]
                fn call<const N: usize>(filter: &mut $filter<Port, N>, x: f64) -> f64 {
                    filter.update(Port(x)).0
                }
                for (x, y) in input.iter().zip(output) {
                    *y = call(self, *x);
                }
            }
            fn in_place(&mut self, buffer: &mut [f64]) {
                for x in buffer {
                    *x = self.update(Port(*x)).0;
                }
            }
        }
    };
}
running!(FirFilter);
running!(ButterworthLp);

/// The filter of these taps.
pub fn fir(taps: &[f64]) -> Box<dyn Running> {
    macro_rules! by_taps {
        ($($n:literal)*) => {
            match taps.len() {
                $( $n => Box::new(FirFilter::<Port, $n>::from_coeffs(std::array::from_fn(|i| Port(taps[i])))), )*
                n => panic!("{n} taps are not measured"),
            }
        };
    }
    by_taps!(1 2 4 8 16 31 32 64)
}

/// The Butterworth low pass of order 7 or 8.
pub fn lowpass(order: usize, cutoff: f64, rate: f64) -> Box<dyn Running> {
    match order {
        7 => Box::new(design_butterworth_lp::<Port, 7>(Port(cutoff), Port(rate)).unwrap()),
        8 => Box::new(design_butterworth_lp::<Port, 8>(Port(cutoff), Port(rate)).unwrap()),
        _ => panic!("order {order} is not measured"),
    }
}

/// Pulses of so many places through a channel class, one after the other.
pub fn j211(class: usize, rate: f64, length: usize, buffer: &mut [f64]) {
    for b in buffer.chunks_mut(length) {
        assert_eq!(j211::filter(class, rate, b), 0);
    }
}

/// A channel of a block, read into so many places, one reading after the other.
pub fn read_channel(block: &[u8], channel: usize, length: usize, output: &mut [f64]) {
    for b in output.chunks_mut(length) {
        assert_eq!(rival::read_channel(block, channel, b), (0, length));
    }
}

/// The bit patterns in the Debug form of a filter of order 8: its four sections.
fn bits(filter: &impl Debug) -> Vec<u64> {
    let text = format!("{filter:?}");
    let words = text.split(|c: char| !c.is_ascii_alphanumeric()).filter(|w| w.len() == 16);
    words.filter_map(|w| u64::from_str_radix(w, 16).ok()).collect()
}

/// So many designs of order 8, and the bits of one.
pub fn lowpass_designs(count: usize, cutoff: f64, rate: f64) {
    for _ in 0..count {
        black_box(design_butterworth_lp::<Port, 8>(Port(black_box(cutoff)), Port(black_box(rate))).unwrap());
    }
}
pub fn lowpass_bits(cutoff: f64, rate: f64) -> Vec<u64> {
    bits(&design_butterworth_lp::<Port, 8>(Port(cutoff), Port(rate)).unwrap())
}
pub fn chebyshev1_designs(count: usize, cutoff: f64, decibels: f64, rate: f64) {
    for _ in 0..count {
        black_box(design_chebyshev1_lp::<Port, 8>(Port(black_box(cutoff)), Port(black_box(decibels)), Port(black_box(rate))).unwrap());
    }
}
pub fn chebyshev1_bits(cutoff: f64, decibels: f64, rate: f64) -> Vec<u64> {
    bits(&design_chebyshev1_lp::<Port, 8>(Port(cutoff), Port(decibels), Port(rate)).unwrap())
}

/// The same designs over f64 as the published scalar.rs has it, with the C library's elementary functions: other bits.
pub fn lowpass_designs_libm(count: usize, cutoff: f64, rate: f64) {
    for _ in 0..count {
        black_box(design_butterworth_lp::<f64, 8>(black_box(cutoff), black_box(rate)).unwrap());
    }
}
pub fn chebyshev1_designs_libm(count: usize, cutoff: f64, decibels: f64, rate: f64) {
    for _ in 0..count {
        black_box(design_chebyshev1_lp::<f64, 8>(black_box(cutoff), black_box(decibels), black_box(rate)).unwrap());
    }
}
