// What a call comes to, written from include/pulse.h and 01, without the archive: the refusal, and the slices after a step,
// a block or a reset. The designs' numbers come from the published Rust (published.rs).
use crate::slices::{Call, Function::*, Slices};

const BAD_CASCADE: u8 = 11;
const BAD_TAPS: u8 = 12;
const BAD_CALL: u8 = 13;
const SHORT_OUTPUT: u8 = 5;

/// A slice of another length than asked for, a flag above 1, a design's window code above 3.
fn is_bad_call(call: &Call, s: &Slices) -> bool {
    let f = call.function;
    let state = if f.is_cascade() { s.numbers.len() == 32 && s.counts.len() == 3 } else { s.taps.len() == 64 && s.samples.len() == 64 && s.fir_counts.len() == 3 };
    let answer = !f.is_step() || s.answer.len() == 1;
    let clouded = !(f.is_step() || f.is_block() || f.is_in_place()) || s.clouded.len() == 1;
    if !state || !answer || !clouded {
        return true;
    }
    match f {
        CascadeStep | CascadeBlock | CascadeInPlace | CascadeReset => s.counts[1] > 1 || s.counts[2] > 1,
        FirDesign => call.window > 3,
        _ => false,
    }
}

/// Of a step, a block or a reset: 0, or the number. Of a design: 13 or 0, its parameters are not looked at.
pub fn refusal(call: &Call, s: &Slices) -> u8 {
    if is_bad_call(call, s) {
        return BAD_CALL;
    }
    if call.function.is_design() {
        return 0;
    }
    if call.function.is_cascade() {
        if s.counts[0] > 4 || s.counts[0] == 0 && s.counts[1] == 0 {
            return BAD_CASCADE;
        }
    } else {
        let (length, held, window) = (s.fir_counts[0], s.fir_counts[1], s.fir_counts[2]);
        if length == 0 || length > 64 || held > length || window > 4 {
            return BAD_TAPS;
        }
    }
    if call.function.is_block() && s.output.len() < s.input.len() { SHORT_OUTPUT } else { 0 }
}

/// The answer of a cascade to x.
fn cascade_step(s: &mut Slices, x: f64) -> f64 {
    let mut y = x;
    if s.counts[1] == 1 {
        let [b0, b1, a1, w] = &mut s.numbers[28..] else { unreachable!() };
        let out = *b0 * y + *w;
        *w = *b1 * y - *a1 * out;
        y = out;
    }
    for section in s.numbers[..28].chunks_mut(7).take(s.counts[0]) {
        let [b0, b1, b2, a1, a2, w1, w2] = section else { unreachable!() };
        let out = *b0 * y + *w1;
        *w1 = (*b1 * y - *a1 * out) + *w2;
        *w2 = *b2 * y - *a2 * out;
        y = out;
    }
    s.counts[2] |= !x.is_finite() as usize;
    y
}

/// The answer of a FIR to x.
fn fir_step(s: &mut Slices, x: f64) -> f64 {
    let (length, held) = (s.fir_counts[0], s.fir_counts[1]);
    s.samples.copy_within(0..length - 1, 1);
    s.samples[0] = x;
    s.fir_counts[1] = (held + 1).min(length);
    let mut sum = 0.0;
    for i in 0..s.fir_counts[1] {
        sum += s.taps[i] * s.samples[i];
    }
    sum
}

/// The answer to x, and its mark.
fn step(call: &Call, s: &mut Slices, x: f64) -> (f64, usize) {
    if call.function.is_cascade() {
        let y = cascade_step(s, x);
        return (y, s.counts[2]);
    }
    let y = fir_step(s, x);
    (y, s.samples[..s.fir_counts[1]].iter().any(|x| !x.is_finite()) as usize)
}

fn reset(call: &Call, s: &mut Slices) {
    if call.function.is_cascade() {
        for i in 0..4 {
            s.numbers[7 * i + 5..7 * i + 7].fill(0.0);
        }
        s.numbers[31] = 0.0;
        s.counts[2] = 0;
    } else {
        s.samples.fill(0.0);
        s.fir_counts[1] = 0;
    }
}

/// The slices after an accepted step, block or reset.
pub fn run(call: &Call, s: &mut Slices) {
    match call.function {
        CascadeStep | FirStep => {
            let (y, mark) = step(call, s, call.x);
            s.answer[0] = y;
            s.clouded[0] = mark;
        }
        CascadeBlock | FirBlock => {
            let mut clouded = 0;
            for i in 0..s.input.len() {
                let (y, mark) = step(call, s, s.input[i]);
                s.output[i] = y;
                clouded += mark;
            }
            s.clouded[0] = clouded;
        }
        CascadeInPlace | FirInPlace => {
            let mut clouded = 0;
            for i in 0..s.buffer.len() {
                let (y, mark) = step(call, s, s.buffer[i]);
                s.buffer[i] = y;
                clouded += mark;
            }
            s.clouded[0] = clouded;
        }
        _ => reset(call, s),
    }
}
