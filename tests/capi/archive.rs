// The functions of include/pulse.h as the archive has them, called over slices that stand between guard places: a write
// outside a slice is found.
use crate::slices::{Call, Function::*, Slices};

/// Declares each function in its default form and in its raw one.
macro_rules! both_forms {
    ($($name:ident $raw:ident $arguments:tt;)*) => { extern "C" { $( fn $name $arguments -> u8; fn $raw $arguments -> u8; )* } };
}
both_forms! {
    pulse_design_butterworth_lp pulse_design_butterworth_lp_raw
        (order: usize, cutoff: f64, rate: f64, numbers: *mut f64, numbers_len: usize, counts: *mut usize, counts_len: usize);
    pulse_design_butterworth_hp pulse_design_butterworth_hp_raw
        (order: usize, cutoff: f64, rate: f64, numbers: *mut f64, numbers_len: usize, counts: *mut usize, counts_len: usize);
    pulse_design_butterworth_bp pulse_design_butterworth_bp_raw
        (order: usize, low: f64, high: f64, rate: f64, numbers: *mut f64, numbers_len: usize, counts: *mut usize, counts_len: usize);
    pulse_design_chebyshev1_lp pulse_design_chebyshev1_lp_raw
        (order: usize, cutoff: f64, decibels: f64, rate: f64, numbers: *mut f64, numbers_len: usize, counts: *mut usize, counts_len: usize);
    pulse_design_chebyshev2_lp pulse_design_chebyshev2_lp_raw
        (order: usize, cutoff: f64, decibels: f64, rate: f64, numbers: *mut f64, numbers_len: usize, counts: *mut usize, counts_len: usize);
    pulse_design_fir_lp pulse_design_fir_lp_raw
        (taps_asked: usize, cutoff: f64, window: usize, taps: *mut f64, taps_len: usize, samples: *mut f64, samples_len: usize,
         counts: *mut usize, counts_len: usize);
    pulse_fir_from_coeffs pulse_fir_from_coeffs_raw
        (coeffs: *const f64, coeffs_len: usize, taps: *mut f64, taps_len: usize, samples: *mut f64, samples_len: usize, counts: *mut usize, counts_len: usize);
}
extern "C" {
    fn pulse_cascade_step(numbers: *mut f64, numbers_len: usize, counts: *mut usize, counts_len: usize, x: f64, answer: *mut f64, answer_len: usize, clouded: *mut usize, clouded_len: usize) -> u8;
    fn pulse_cascade_block(numbers: *mut f64, numbers_len: usize, counts: *mut usize, counts_len: usize, input: *const f64, input_len: usize, output: *mut f64, output_len: usize, clouded: *mut usize, clouded_len: usize) -> u8;
    fn pulse_cascade_block_in_place(numbers: *mut f64, numbers_len: usize, counts: *mut usize, counts_len: usize, buffer: *mut f64, buffer_len: usize, clouded: *mut usize, clouded_len: usize) -> u8;
    fn pulse_cascade_reset(numbers: *mut f64, numbers_len: usize, counts: *mut usize, counts_len: usize) -> u8;
    fn pulse_fir_step(taps: *const f64, taps_len: usize, samples: *mut f64, samples_len: usize, counts: *mut usize, counts_len: usize, x: f64, answer: *mut f64, answer_len: usize, clouded: *mut usize, clouded_len: usize) -> u8;
    fn pulse_fir_block(taps: *const f64, taps_len: usize, samples: *mut f64, samples_len: usize, counts: *mut usize, counts_len: usize, input: *const f64, input_len: usize, output: *mut f64, output_len: usize, clouded: *mut usize, clouded_len: usize) -> u8;
    fn pulse_fir_block_in_place(taps: *const f64, taps_len: usize, samples: *mut f64, samples_len: usize, counts: *mut usize, counts_len: usize, buffer: *mut f64, buffer_len: usize, clouded: *mut usize, clouded_len: usize) -> u8;
    fn pulse_fir_reset(taps: *const f64, taps_len: usize, samples: *mut f64, samples_len: usize, counts: *mut usize, counts_len: usize) -> u8;
    fn pulse_j211(channel_class: usize, rate: f64, buffer: *mut f64, buffer_len: usize) -> u8;
    fn pulse_read_channel(block: *const u8, block_len: usize, channel: usize, output: *mut f64, output_len: usize, count: *mut usize, count_len: usize) -> u8;
}

const GUARDS: usize = 8;

/// A slice with guard places before and behind it.
struct Guarded<T> {
    places: Vec<T>,
    front: usize,
    guard: T,
}

impl<T: Copy + PartialEq> Guarded<T> {
    /// `shift` more places in front, so that slices start at any multiple of eight bytes, a block at any byte.
    fn new(slice: &[T], shift: usize, guard: T) -> Guarded<T> {
        let front = GUARDS + shift;
        let mut places = vec![guard; front];
        places.extend_from_slice(slice);
        places.extend_from_slice(&[guard; GUARDS]);
        Guarded { places, front, guard }
    }
    fn start(&mut self) -> *mut T {
        self.places[self.front..].as_mut_ptr()
    }
    fn len(&self) -> usize {
        self.places.len() - self.front - GUARDS
    }
    /// Puts the slice back; false where a guard place was written.
    fn back(self, slice: &mut [T]) -> bool {
        let (front, rest) = self.places.split_at(self.front);
        let (middle, behind) = rest.split_at(slice.len());
        slice.copy_from_slice(middle);
        front.iter().chain(behind).all(|g| *g == self.guard)
    }
}

struct Lent {
    floats: [Guarded<f64>; 7],
    wholes: [Guarded<usize>; 4],
    block: Guarded<u8>,
}

impl Lent {
    fn new(s: &Slices, shift: usize) -> Lent {
        let floats = [&s.numbers, &s.taps, &s.samples, &s.input, &s.output, &s.buffer, &s.answer].map(|f| Guarded::new(f, shift, 123.456));
        let wholes = [&s.counts, &s.fir_counts, &s.clouded, &s.count].map(|w| Guarded::new(w, shift, 123_456));
        Lent { floats, wholes, block: Guarded::new(&s.block, shift, 123) }
    }
    fn back(self, s: &mut Slices) -> bool {
        let mut good = self.block.back(&mut s.block);
        let floats = [&mut s.numbers, &mut s.taps, &mut s.samples, &mut s.input, &mut s.output, &mut s.buffer, &mut s.answer];
        for (guarded, slice) in self.floats.into_iter().zip(floats) {
            good &= guarded.back(slice);
        }
        for (guarded, slice) in self.wholes.into_iter().zip([&mut s.counts, &mut s.fir_counts, &mut s.clouded, &mut s.count]) {
            good &= guarded.back(slice);
        }
        good
    }
}

/// The function that a call asks for, of its two forms.
macro_rules! form {
    ($call:ident, $default:ident, $raw:ident) => {
        if $call.raw { $raw } else { $default }
    };
}

/// What the archive returns, and whether it stayed within the slices.
pub fn call(call: &Call, slices: &mut Slices, shift: usize) -> (u8, bool) {
    let mut lent = Lent::new(slices, shift);
    let number = match call.function {
        J211 => pulse(call, &mut lent),
        ReadChannel => channel(call, &mut lent),
        function if function.is_cascade() => cascade(call, &mut lent),
        _ => fir(call, &mut lent),
    };
    (number, lent.back(slices))
}

fn cascade(call: &Call, lent: &mut Lent) -> u8 {
    let [numbers, _, _, input, output, buffer, answer] = &mut lent.floats;
    let [counts, _, clouded, _] = &mut lent.wholes;
    let (n, nl, c, cl) = (numbers.start(), numbers.len(), counts.start(), counts.len());
    let v = |i: usize| call.floats[i];
    unsafe {
        match call.function {
            LowPass => form!(call, pulse_design_butterworth_lp, pulse_design_butterworth_lp_raw)(call.size, v(0), v(1), n, nl, c, cl),
            HighPass => form!(call, pulse_design_butterworth_hp, pulse_design_butterworth_hp_raw)(call.size, v(0), v(1), n, nl, c, cl),
            BandPass => form!(call, pulse_design_butterworth_bp, pulse_design_butterworth_bp_raw)(call.size, v(0), v(1), v(2), n, nl, c, cl),
            Chebyshev1 => form!(call, pulse_design_chebyshev1_lp, pulse_design_chebyshev1_lp_raw)(call.size, v(0), v(1), v(2), n, nl, c, cl),
            Chebyshev2 => form!(call, pulse_design_chebyshev2_lp, pulse_design_chebyshev2_lp_raw)(call.size, v(0), v(1), v(2), n, nl, c, cl),
            CascadeStep => pulse_cascade_step(n, nl, c, cl, call.x, answer.start(), answer.len(), clouded.start(), clouded.len()),
            CascadeBlock => pulse_cascade_block(n, nl, c, cl, input.start(), input.len(), output.start(), output.len(), clouded.start(), clouded.len()),
            CascadeInPlace => pulse_cascade_block_in_place(n, nl, c, cl, buffer.start(), buffer.len(), clouded.start(), clouded.len()),
            _ => pulse_cascade_reset(n, nl, c, cl),
        }
    }
}

fn fir(call: &Call, lent: &mut Lent) -> u8 {
    let [_, taps, samples, input, output, buffer, answer] = &mut lent.floats;
    let [_, counts, clouded, _] = &mut lent.wholes;
    let (t, tl, s, sl, c, cl) = (taps.start(), taps.len(), samples.start(), samples.len(), counts.start(), counts.len());
    unsafe {
        match call.function {
            FirDesign => form!(call, pulse_design_fir_lp, pulse_design_fir_lp_raw)(call.size, call.floats[0], call.window, t, tl, s, sl, c, cl),
            FirCoeffs => form!(call, pulse_fir_from_coeffs, pulse_fir_from_coeffs_raw)(input.start(), input.len(), t, tl, s, sl, c, cl),
            FirStep => pulse_fir_step(t, tl, s, sl, c, cl, call.x, answer.start(), answer.len(), clouded.start(), clouded.len()),
            FirBlock => pulse_fir_block(t, tl, s, sl, c, cl, input.start(), input.len(), output.start(), output.len(), clouded.start(), clouded.len()),
            FirInPlace => pulse_fir_block_in_place(t, tl, s, sl, c, cl, buffer.start(), buffer.len(), clouded.start(), clouded.len()),
            _ => pulse_fir_reset(t, tl, s, sl, c, cl),
        }
    }
}

fn pulse(call: &Call, lent: &mut Lent) -> u8 {
    let [_, _, _, _, _, buffer, _] = &mut lent.floats;
    unsafe { pulse_j211(call.size, call.floats[0], buffer.start(), buffer.len()) }
}

fn channel(call: &Call, lent: &mut Lent) -> u8 {
    let [_, _, _, _, output, _, _] = &mut lent.floats;
    let [_, _, _, count] = &mut lent.wholes;
    let block = &mut lent.block;
    unsafe { pulse_read_channel(block.start(), block.len(), call.size, output.start(), output.len(), count.start(), count.len()) }
}
