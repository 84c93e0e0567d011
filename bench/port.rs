// The port's side of the bench: the functions of include/pulse.h that are measured, and the two of the second archive, which
// run the by-value update once for each sample; each as a closure from an input to an output.

extern "C" {
    fn pulse_design_butterworth_lp(order: usize, cutoff: f64, rate: f64, numbers: *mut f64, numbers_len: usize, counts: *mut usize, counts_len: usize) -> u8;
    fn pulse_design_butterworth_lp_raw(
        order: usize, cutoff: f64, rate: f64, numbers: *mut f64, numbers_len: usize, counts: *mut usize, counts_len: usize) -> u8;
    fn pulse_design_chebyshev1_lp(order: usize, cutoff: f64, decibels: f64, rate: f64, numbers: *mut f64, numbers_len: usize, counts: *mut usize, counts_len: usize) -> u8;
    fn pulse_cascade_step(numbers: *mut f64, numbers_len: usize, counts: *mut usize, counts_len: usize, x: f64, answer: *mut f64, answer_len: usize, clouded: *mut usize, clouded_len: usize) -> u8;
    fn pulse_cascade_block(numbers: *mut f64, numbers_len: usize, counts: *mut usize, counts_len: usize, input: *const f64, input_len: usize, output: *mut f64, output_len: usize, clouded: *mut usize, clouded_len: usize) -> u8;
    fn pulse_cascade_block_in_place(numbers: *mut f64, numbers_len: usize, counts: *mut usize, counts_len: usize, buffer: *mut f64, buffer_len: usize, clouded: *mut usize, clouded_len: usize) -> u8;
    fn pulse_fir_from_coeffs(coeffs: *const f64, coeffs_len: usize, taps: *mut f64, taps_len: usize, samples: *mut f64, samples_len: usize, counts: *mut usize, counts_len: usize) -> u8;
    fn pulse_fir_step(taps: *const f64, taps_len: usize, samples: *mut f64, samples_len: usize, counts: *mut usize, counts_len: usize, x: f64, answer: *mut f64, answer_len: usize, clouded: *mut usize, clouded_len: usize) -> u8;
    fn pulse_fir_block(taps: *const f64, taps_len: usize, samples: *mut f64, samples_len: usize, counts: *mut usize, counts_len: usize, input: *const f64, input_len: usize, output: *mut f64, output_len: usize, clouded: *mut usize, clouded_len: usize) -> u8;
    fn pulse_fir_block_in_place(taps: *const f64, taps_len: usize, samples: *mut f64, samples_len: usize, counts: *mut usize, counts_len: usize, buffer: *mut f64, buffer_len: usize, clouded: *mut usize, clouded_len: usize) -> u8;
    fn pulse_j211(channel_class: usize, rate: f64, buffer: *mut f64, buffer_len: usize) -> u8;
    fn pulse_read_channel(block: *const u8, block_len: usize, channel: usize, output: *mut f64, output_len: usize, count: *mut usize, count_len: usize) -> u8;
}
#[cfg(steps)]
extern "C" {
    fn steps_cascade(order: usize, cutoff: f64, rate: f64, input: *const f64, input_len: usize, output: *mut f64, output_len: usize) -> u8;
    fn steps_fir(coeffs: *const f64, coeffs_len: usize, input: *const f64, input_len: usize, output: *mut f64, output_len: usize) -> u8;
}

/// From the input to the output, and on from there the next time. A run in place takes its samples from the output.
pub type Run = Box<dyn FnMut(&[f64], &mut [f64])>;

fn accepted(number: u8) {
    assert_eq!(number, 0, "the port refuses the call");
}

#[derive(Clone)]
struct Cascade {
    numbers: [f64; 32],
    counts: [usize; 3],
}

fn lowpass(order: usize, cutoff: f64, rate: f64) -> Cascade {
    let mut c = Cascade { numbers: [0.0; 32], counts: [0; 3] };
    accepted(unsafe { pulse_design_butterworth_lp(order, cutoff, rate, c.numbers.as_mut_ptr(), 32, c.counts.as_mut_ptr(), 3) });
    c
}

pub fn cascade_steps(order: usize, cutoff: f64, rate: f64) -> Run {
    let mut c = lowpass(order, cutoff, rate);
    Box::new(move |input, output| {
        let mut clouded = 0;
        for (x, y) in input.iter().zip(output) {
            accepted(unsafe { pulse_cascade_step(c.numbers.as_mut_ptr(), 32, c.counts.as_mut_ptr(), 3, *x, y, 1, &mut clouded, 1) });
        }
    })
}

pub fn cascade_blocks(order: usize, cutoff: f64, rate: f64, length: usize) -> Run {
    let mut c = lowpass(order, cutoff, rate);
    Box::new(move |input, output| {
        let mut clouded = 0;
        for (x, y) in input.chunks(length).zip(output.chunks_mut(length)) {
            accepted(unsafe { pulse_cascade_block(c.numbers.as_mut_ptr(), 32, c.counts.as_mut_ptr(), 3, x.as_ptr(), x.len(), y.as_mut_ptr(), y.len(), &mut clouded, 1) });
        }
    })
}

pub fn cascade_in_place(order: usize, cutoff: f64, rate: f64, length: usize) -> Run {
    let mut c = lowpass(order, cutoff, rate);
    Box::new(move |_, output| {
        let mut clouded = 0;
        for b in output.chunks_mut(length) {
            accepted(unsafe { pulse_cascade_block_in_place(c.numbers.as_mut_ptr(), 32, c.counts.as_mut_ptr(), 3, b.as_mut_ptr(), b.len(), &mut clouded, 1) });
        }
    })
}

/// Each run starts from a new design.
#[cfg(steps)]
pub fn cascade_by_value(order: usize, cutoff: f64, rate: f64) -> Run {
    Box::new(move |x, y| accepted(unsafe { steps_cascade(order, cutoff, rate, x.as_ptr(), x.len(), y.as_mut_ptr(), y.len()) }))
}

#[derive(Clone)]
struct Taps {
    taps: [f64; 64],
    samples: [f64; 64],
    counts: [usize; 3],
}

fn from_coeffs(coeffs: &[f64]) -> Taps {
    let mut t = Taps { taps: [0.0; 64], samples: [0.0; 64], counts: [0; 3] };
    accepted(unsafe { pulse_fir_from_coeffs(coeffs.as_ptr(), coeffs.len(), t.taps.as_mut_ptr(), 64, t.samples.as_mut_ptr(), 64, t.counts.as_mut_ptr(), 3) });
    t
}

pub fn fir_steps(coeffs: &[f64]) -> Run {
    let mut t = from_coeffs(coeffs);
    Box::new(move |input, output| {
        let mut clouded = 0;
        for (x, y) in input.iter().zip(output) {
            accepted(unsafe { pulse_fir_step(t.taps.as_ptr(), 64, t.samples.as_mut_ptr(), 64, t.counts.as_mut_ptr(), 3, *x, y, 1, &mut clouded, 1) });
        }
    })
}

pub fn fir_blocks(coeffs: &[f64], length: usize) -> Run {
    let mut t = from_coeffs(coeffs);
    Box::new(move |input, output| {
        let mut clouded = 0;
        for (x, y) in input.chunks(length).zip(output.chunks_mut(length)) {
            accepted(unsafe { pulse_fir_block(t.taps.as_ptr(), 64, t.samples.as_mut_ptr(), 64, t.counts.as_mut_ptr(), 3, x.as_ptr(), x.len(), y.as_mut_ptr(), y.len(), &mut clouded, 1) });
        }
    })
}

pub fn fir_in_place(coeffs: &[f64], length: usize) -> Run {
    let mut t = from_coeffs(coeffs);
    Box::new(move |_, output| {
        let mut clouded = 0;
        for b in output.chunks_mut(length) {
            accepted(unsafe { pulse_fir_block_in_place(t.taps.as_ptr(), 64, t.samples.as_mut_ptr(), 64, t.counts.as_mut_ptr(), 3, b.as_mut_ptr(), b.len(), &mut clouded, 1) });
        }
    })
}

/// Each run starts from a new record.
#[cfg(steps)]
pub fn fir_by_value(coeffs: &[f64]) -> Run {
    let coeffs = coeffs.to_vec();
    Box::new(move |x, y| accepted(unsafe { steps_fir(coeffs.as_ptr(), coeffs.len(), x.as_ptr(), x.len(), y.as_mut_ptr(), y.len()) }))
}

/// Pulses of so many places, one after the other.
pub fn j211(class: usize, rate: f64, length: usize) -> Run {
    Box::new(move |_, output| {
        for b in output.chunks_mut(length) {
            accepted(unsafe { pulse_j211(class, rate, b.as_mut_ptr(), b.len()) });
        }
    })
}

/// A channel of a block, read into so many places, one reading after the other.
pub fn read_channel(block: Vec<u8>, channel: usize, length: usize) -> Run {
    Box::new(move |_, output| {
        let mut count = 0;
        for b in output.chunks_mut(length) {
            accepted(unsafe { pulse_read_channel(block.as_ptr(), block.len(), channel, b.as_mut_ptr(), b.len(), &mut count, 1) });
        }
    })
}

/// So many designs of order 8, in the default form or the raw one; the bits of the four sections of the last.
pub fn lowpass_designs(raw: bool, count: usize, cutoff: f64, rate: f64) -> Vec<u64> {
    let design = if raw { pulse_design_butterworth_lp_raw } else { pulse_design_butterworth_lp };
    let mut c = lowpass(8, cutoff, rate);
    for _ in 0..count {
        accepted(unsafe { design(8, cutoff, rate, c.numbers.as_mut_ptr(), 32, c.counts.as_mut_ptr(), 3) });
    }
    c.numbers[..28].iter().map(|x| x.to_bits()).collect()
}

/// The same of Chebyshev I, in the default form.
pub fn chebyshev1_designs(count: usize, cutoff: f64, decibels: f64, rate: f64) -> Vec<u64> {
    let mut c = lowpass(8, cutoff, rate);
    for _ in 0..count {
        accepted(unsafe { pulse_design_chebyshev1_lp(8, cutoff, decibels, rate, c.numbers.as_mut_ptr(), 32, c.counts.as_mut_ptr(), 3) });
    }
    c.numbers[..28].iter().map(|x| x.to_bits()).collect()
}
