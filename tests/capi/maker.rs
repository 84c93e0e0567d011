// Makes calls and states by a deterministic pseudo random sequence: parameters, samples and states, good and bad.
use crate::slices::{Call, Function, Function::*, Slices, FUNCTIONS};

const CLASSES: [usize; 4] = [60, 180, 600, 1000];

/// splitmix64.
pub struct Dice(pub u64);

impl Dice {
    pub fn next(&mut self) -> u64 {
        self.0 = self.0.wrapping_add(0x9E37_79B9_7F4A_7C15);
        let mut z = self.0;
        z = (z ^ (z >> 30)).wrapping_mul(0xBF58_476D_1CE4_E5B9);
        z = (z ^ (z >> 27)).wrapping_mul(0x94D0_49BB_1331_11EB);
        z ^ (z >> 31)
    }
    pub fn below(&mut self, n: usize) -> usize {
        (self.next() % n as u64) as usize
    }
    pub fn one_in(&mut self, n: usize) -> bool {
        self.below(n) == 0
    }
    pub fn pick<T: Copy>(&mut self, from: &[T]) -> T {
        from[self.below(from.len())]
    }
    /// Above 0 and below 1.
    fn unit(&mut self) -> f64 {
        (self.next() >> 12) as f64 * 2f64.powi(-52) + 2f64.powi(-53)
    }
    fn ordinary(&mut self) -> f64 {
        2.0 * self.unit() - 1.0
    }

    /// Zeros, subnormals, the largest and smallest, infinities, NaNs of several payloads, any bits.
    fn special(&mut self) -> f64 {
        let bits = self.next();
        match self.below(8) {
            0 => self.pick(&[f64::INFINITY, f64::NEG_INFINITY]),
            1 => self.pick(&[f64::NAN, -f64::NAN, f64::from_bits(0x7FF0_0000_0000_0001), f64::from_bits(0xFFF4_0000_0000_1234), f64::from_bits(0x7FFF_FFFF_FFFF_FFFF)]),
            2 => f64::from_bits(bits & 0x800F_FFFF_FFFF_FFFF),
            3 => self.pick(&[0.0, -0.0, 5e-324, -5e-324, f64::MIN_POSITIVE, -f64::MIN_POSITIVE]),
            4 => self.pick(&[f64::MAX, f64::MIN, 1e308, -1e300]),
            5 => f64::from_bits(bits),
            _ => self.ordinary() * 2f64.powi(self.below(2000) as i32 - 1000),
        }
    }

    /// Samples: mostly ordinary ones, at times with a special one among them, with many, or only such.
    pub fn samples(&mut self, n: usize) -> Vec<f64> {
        let mood = self.below(24);
        let scale = if mood < 4 { 2f64.powi(self.below(80) as i32 - 40) } else { 1.0 };
        let mut xs: Vec<f64> = (0..n).map(|_| self.ordinary() * scale).collect();
        let rate = [n.max(1), 4, 1][mood % 3];
        for x in &mut xs {
            if mood >= 21 && self.one_in(rate) {
                *x = self.special();
            }
        }
        xs
    }
    fn sample(&mut self) -> f64 {
        if self.one_in(16) { self.special() } else { self.ordinary() }
    }

    fn rate(&mut self) -> f64 {
        if self.one_in(12) {
            return self.pick(&[0.0, -0.0, -1.0, f64::NAN, f64::INFINITY, f64::NEG_INFINITY, 5e-324, f64::MAX]);
        }
        self.pick(&[1.0, 1000.0, 10_000.0, 48_000.0, 1e-300, 0.1])
    }
    fn cutoff(&mut self, rate: f64) -> f64 {
        if self.one_in(12) {
            let half = rate * 0.5;
            return self.pick(&[0.0, -0.0, -1.0, half, f64::from_bits(half.to_bits().wrapping_sub(1)), rate, f64::NAN, f64::INFINITY, 5e-324]);
        }
        rate * 0.5 * self.unit()
    }
    fn decibels(&mut self) -> f64 {
        if self.one_in(12) {
            return self.pick(&[0.0, -0.0, -3.0, f64::NAN, f64::INFINITY, f64::NEG_INFINITY, 5e-324, 1e-17, 700.0, 7000.0]);
        }
        0.01 + 60.0 * self.unit()
    }
    /// The floats of a cascade whose coefficients are often not all finite: a cutoff so large that PI times it overflows, a band
    /// about as narrow as where the poles of some sections are lost, decibels whose power is 1 or overflows.
    fn extreme_floats(&mut self, function: Function) -> Vec<f64> {
        let (large, rate) = (f64::MAX * (0.32 + 0.17 * self.unit()), self.pick(&[f64::MAX, f64::INFINITY]));
        let low = 0.2 + 0.1 * self.unit();
        match function {
            BandPass if self.one_in(4) => vec![large * self.unit(), large, rate],
            BandPass => vec![low, low * (1.0001 + 0.0001 * self.unit()), 1.0],
            Chebyshev1 | Chebyshev2 if self.one_in(4) => vec![large, 3.0, rate],
            Chebyshev1 | Chebyshev2 => vec![low, self.pick(&[5e-324, 1e-17, 2e-16, 3090.0, 7000.0, f64::INFINITY]), 1.0],
            _ => vec![large, rate],
        }
    }
    fn size(&mut self, most: usize) -> usize {
        if self.one_in(8) {
            return self.pick(&[0, most + 1, most + 2, 100, 256 + most, (1 << 32) + most, 1 << 63, usize::MAX]);
        }
        1 + self.below(most)
    }

    /// The floats of a design, in the order of its arguments.
    fn floats(&mut self, function: Function) -> Vec<f64> {
        if function.is_cascade_design() && self.one_in(4) {
            return self.extreme_floats(function);
        }
        let rate = self.rate();
        let base = if rate.is_finite() && rate > 0.0 { rate } else { 1000.0 };
        let cutoff = self.cutoff(base);
        match function {
            BandPass => {
                let high = if self.one_in(6) { self.cutoff(base) } else { cutoff + (base * 0.5 - cutoff) * self.unit() };
                vec![cutoff, high, rate]
            }
            Chebyshev1 | Chebyshev2 => vec![cutoff, self.decibels(), rate],
            FirDesign => vec![self.cutoff(1.0)],
            _ => vec![cutoff, rate],
        }
    }

    /// One of the four channel classes; at times a number about one, that ends in the bits of one, or any other.
    fn class(&mut self) -> usize {
        let class = self.pick(&CLASSES);
        if !self.one_in(10) {
            return class;
        }
        let wide = self.pick(&[1 << 8, 1 << 16, 1 << 32, 1 << 63]);
        let any = self.next() as usize;
        self.pick(&[0, class - 1, class + 1, class + wide, any % 1100, any, usize::MAX])
    }
    /// The rate of a pulse: as a rule above the limit of its class; at times at it, below it, as of a design, or any number.
    fn class_rate(&mut self, class: usize) -> f64 {
        let limit = 2.0 * (class as f64 * 2.0775);
        match self.below(16) {
            0 => self.rate(),
            1 => self.special(),
            2 => f64::from_bits((limit.to_bits() + self.below(5) as u64).saturating_sub(2)),
            3 => limit * self.unit(),
            4..=6 => limit * (1.0 + self.unit()),
            _ => limit * (1.0 + 40.0 * self.unit()),
        }
    }
    /// The samples of a pulse; at times all are subnormal, or so large that sums overflow.
    fn pulse(&mut self, n: usize) -> Vec<f64> {
        let mut xs = self.samples(n);
        if self.one_in(8) {
            let scale = self.pick(&[1e-310, 1e308]);
            xs.iter_mut().for_each(|x| *x *= scale);
        }
        xs
    }
    fn pulse_call(&mut self, samples: usize, s: &mut Slices) -> Call {
        s.buffer = self.pulse(samples);
        let class = self.class();
        Call { function: J211, raw: false, size: class, window: 0, floats: vec![self.class_rate(class)], x: 0.0 }
    }

    /// Bytes by chance, some codes among them about a limit. A code starts at an even place.
    fn bytes(&mut self, n: usize) -> Vec<u8> {
        let mut bytes: Vec<u8> = std::iter::repeat_with(|| self.next().to_le_bytes()).take(n.div_ceil(8)).flatten().take(n).collect();
        for _ in 0..self.below(8) * n.min(1) {
            let code: i16 = self.pick(&[-32768, -32768, -32767, -32766, -256, -1, 0, 1, 255, 256, 32767]);
            let at = self.below(n) / 2 * 2;
            bytes.splice(at..(at + 2).min(n), code.to_le_bytes());
            bytes.truncate(n);
        }
        bytes
    }
    /// A block of the rival recorder with `samples` samples for each of the channels, and `more` bytes behind them.
    fn block(&mut self, channels: usize, samples: usize, more: usize) -> Vec<u8> {
        let header = match self.below(8) {
            0..=2 => 4,
            3 => self.pick(&[5, 8, 254, 255]),
            _ => 4 + self.below(16),
        };
        let mut block = self.bytes(header);
        block[..4].copy_from_slice(&[header as u8, channels as u8, samples as u8, (samples >> 8) as u8]);
        block.extend(self.bytes(2 * channels * samples + more));
        block
    }
    /// An output of any bits for `samples` samples, at times too short.
    fn output(&mut self, samples: usize) -> Vec<f64> {
        let more = self.pick(&[0, 0, 1, 2, 17, 40]);
        let places = if samples > 0 && self.one_in(12) { self.below(samples) } else { samples + more };
        (0..places).map(|_| self.special()).collect()
    }
    /// A channel of a good block; at times the block has no samples or a few.
    fn channel_call(&mut self, samples: usize, s: &mut Slices) -> Call {
        let samples = if self.one_in(8) { self.below(3) } else { samples };
        let (channels, more) = (1 + self.below(8), self.pick(&[0, 0, 0, 1, 2, 15]));
        s.block = self.block(channels, samples, more);
        s.output = self.output(samples);
        Call { function: ReadChannel, raw: false, size: self.below(channels), window: 0, floats: vec![], x: 0.0 }
    }

    /// Ready-made taps, at times none or too many; at times the first, the last or any is not finite, or the largest number.
    fn ready_made(&mut self) -> Vec<f64> {
        let n = if self.one_in(8) { self.pick(&[0, 65, 66, 100, 300]) } else { 1 + self.below(64) };
        let mut taps = self.samples(n);
        if n > 0 && self.one_in(4) {
            let any = self.below(n);
            let place = self.pick(&[0, n - 1, any]);
            taps[place] = self.pick(&[f64::INFINITY, f64::NEG_INFINITY, f64::NAN, f64::from_bits(0xFFF4_0000_0000_1234), f64::MAX]);
        }
        taps
    }

    /// A call of the function, its own slices among the given ones, a design in either form. A block, in place or not, a pulse or a
    /// channel has `samples` samples.
    pub fn call(&mut self, function: Function, samples: usize, s: &mut Slices) -> Call {
        let most = match function {
            BandPass => 4,
            FirDesign => 64,
            _ => 8,
        };
        s.answer = vec![self.special()];
        s.clouded = vec![self.pick(&[0, 1, 77, usize::MAX])];
        s.count = vec![self.pick(&[0, 1, 77, usize::MAX])];
        (s.input, s.output, s.buffer, s.block) = (vec![], vec![], vec![], vec![]);
        if function == J211 {
            return self.pulse_call(samples, s);
        }
        if function == ReadChannel {
            return self.channel_call(samples, s);
        }
        if function.is_in_place() {
            s.buffer = self.samples(samples);
        } else if function.is_block() {
            s.input = self.samples(samples);
            s.output = self.output(samples);
        } else if function == FirCoeffs {
            s.input = self.ready_made();
        }
        let size = if function == FirDesign && self.one_in(8) { 1 } else { self.size(most) };
        let raw = function.is_design() && self.one_in(2);
        Call { function, raw, size, window: self.below(4), floats: self.floats(function), x: self.sample() }
    }

    /// A state that no design made, and that is accepted: any numbers, parts that are not used included.
    pub fn cascade_state(&mut self, s: &mut Slices) {
        s.numbers = self.samples(32);
        let sections = self.below(5);
        let first = if sections == 0 { 1 } else { self.below(2) };
        s.counts = vec![sections, first, self.below(2)];
        if self.one_in(2) {
            s.numbers[7 * sections..28].iter_mut().for_each(|x| *x = f64::NAN);
        }
    }
    pub fn fir_state(&mut self, s: &mut Slices) {
        (s.taps, s.samples) = (self.samples(64), self.samples(64));
        let length = 1 + self.below(64);
        let held = self.below(length + 1);
        s.fir_counts = vec![length, held, self.below(5)];
        if self.one_in(2) {
            let behind = if self.one_in(2) { held } else { length };
            s.samples[behind..].iter_mut().for_each(|x| *x = f64::NAN);
        }
    }

    /// One thing wrong with the call of a channel: the length of `count`, the header length, the channel count, the samples per
    /// channel, the length of the block, the channel, the length of the output.
    fn damage_channel(&mut self, call: &mut Call, s: &mut Slices) {
        let end = s.block.len();
        let samples = if end < 4 { 0 } else { u16::from_le_bytes([s.block[2], s.block[3]]) };
        let any = self.next() as u8;
        match self.below(8) {
            0 => s.count.resize(self.pick(&[0, 2, 3]), 7),
            1 if end > 0 => s.block[0] = self.pick(&[0, 3, 3, 5, end as u8, (end + 1) as u8, (end + 1) as u8, 255, any]),
            2 if end > 1 => s.block[1] = self.pick(&[0, 0, 9, 9, 128, 255, any]),
            3 if end > 3 => {
                let wrong = self.pick(&[samples.wrapping_add(1), samples ^ 256, 0x1000, 0x2000, 0x4000, 0x8000, 0xFFFF]);
                s.block[2..4].copy_from_slice(&wrong.to_le_bytes());
            }
            4 => s.block.truncate(self.pick(&[0, 1, 2, 3, 4, 5, end.saturating_sub(1), end.saturating_sub(1), end.saturating_sub(2)])),
            5 | 6 => {
                let channels = *s.block.get(1).unwrap_or(&1) as usize;
                let wide = self.pick(&[1 << 8, 1 << 32, 1 << 63]);
                call.size = self.pick(&[channels, channels, channels + 1, 255, call.size.wrapping_add(wide), usize::MAX]);
            }
            _ => s.output.truncate((samples as usize).saturating_sub(1 + self.below(2))),
        }
    }

    /// One thing wrong with the call: a length, a flag, a count, a window code; of a pulse its class or its rate; of a channel
    /// anything.
    pub fn damage(&mut self, call: &mut Call, s: &mut Slices) {
        let f = call.function;
        if f == ReadChannel {
            return self.damage_channel(call, s);
        }
        let near = |n: usize| [n + 1, n + 2, 256 + n, (1 << 32) + n, 1 << 63, usize::MAX];
        let kind = self.below(3);
        if kind == 0 && f != J211 {
            return self.wrong_length(f, s);
        }
        match f {
            J211 if kind == 0 => call.size = self.pick(&near(1000)),
            J211 => call.floats[0] = self.pick(&[0.0, -0.0, -1.0, f64::NAN, f64::NEG_INFINITY, 5e-324, 249.3]),
            FirDesign => call.window = self.pick(&near(3)),
            CascadeStep | CascadeBlock | CascadeInPlace | CascadeReset if s.counts.len() == 3 => {
                if kind == 1 {
                    s.counts[0] = self.pick(&near(4));
                } else if self.one_in(3) {
                    s.counts = vec![0, 0, self.below(2)];
                } else {
                    let flag = 1 + self.below(2);
                    s.counts[flag] = self.pick(&near(1));
                }
            }
            FirStep | FirBlock | FirInPlace | FirReset if s.fir_counts.len() == 3 => match self.below(4) {
                0 => s.fir_counts[0] = 0,
                1 => s.fir_counts[0] = self.pick(&near(64)),
                2 => s.fir_counts[1] = self.pick(&near(s.fir_counts[0].min(64))),
                _ => s.fir_counts[2] = self.pick(&near(4)),
            },
            _ => self.wrong_length(f, s),
        }
    }

    fn wrong_length(&mut self, f: Function, s: &mut Slices) {
        let extra = self.special();
        let other = [0, 1, 3, 4][self.below(4)];
        let whole = self.below(3);
        let float = |v: &mut Vec<f64>| v.resize(if other == 0 { 0 } else { (v.len() + other).saturating_sub(2) }, extra);
        let count = |v: &mut Vec<usize>| v.resize(if other == 0 { 0 } else { (v.len() + other).saturating_sub(2) }, whole);
        match (self.below(5), f.is_cascade()) {
            (0, true) => count(&mut s.counts),
            (0, false) => count(&mut s.fir_counts),
            (1, false) => float(&mut s.samples),
            (2, _) if f.is_step() => float(&mut s.answer),
            (3, _) if f.is_step() || f.is_block() || f.is_in_place() => count(&mut s.clouded),
            (_, true) => float(&mut s.numbers),
            (_, false) => float(&mut s.taps),
        }
    }

    pub fn function(&mut self) -> Function {
        self.pick(&FUNCTIONS)
    }
}
