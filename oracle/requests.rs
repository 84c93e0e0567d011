// Makes request lines of the protocol page, good and bad, for the comparison of two programs. The same arguments make the same
// lines. First comes a sweep over every word, order, window, number of taps, small block, channel class and short block of the
// rival's, each design and each set of ready-made taps in both forms, then lines by chance.
// Usage: requests LINES SEED [plain]. `plain` is for a list that is stored: it keeps to printable characters, tabs and line ends,
// and has fewer and shorter blocks of the rival's.
mod requests_forms;
mod requests_rival;

use requests_forms::has_forms;
use std::io::{BufWriter, Write};

const FUNCTIONS: [&str; 9] = ["sqrt", "ln", "sin", "cos", "tan", "exp", "sinh", "cosh", "pow10"];
const PASSES: [&str; 5] = ["lowpass", "highpass", "bandpass", "chebyshev1", "chebyshev2"];
const WINDOWS: [&str; 4] = ["rectangular", "hamming", "hanning", "blackman"];
const CLASSES: [u64; 4] = [60, 180, 600, 1000];
const NO_CLASSES: [u64; 9] = [0, 1, 59, 61, 599, 999, 1001, 100000, 999999999];
const RATES: [u64; 10] = [1000, 2000, 5000, 8000, 10000, 12500, 20000, 44100, 48000, 100000];
/// Where a rule changes, and the ends of the format.
const EDGES: [f64; 20] = [
    0.0, 5e-324, 2.225073858507201e-308, f64::MIN_POSITIVE, 1e-300, f64::EPSILON, f64::EPSILON / 2.0, 0.25, 0.5, 1.0, 2.0, 3.0, 128.0, 307.0,
    708.0, 709.0, 4503599627370496.0, 1e300, f64::MAX, f64::INFINITY,
];
/// Decibels where a of 001, of which sinh is asked, is 1, at orders 1 to 8: 20 × log10 of coth N for Chebyshev I, of cosh N for II.
const UNIT_DECIBELS: [[f64; 8]; 2] = [
    [
        2.365527942836689, 0.31821082187290123, 0.043060423884215576, 0.005827582945915684, 0.0007886775595275571, 0.00010673590082903252,
        1.4445133370033675e-05, 1.9549362160237108e-06,
    ],
    [
        3.767772420683772, 11.50882763368338, 20.05857252880041, 28.725871941719397, 37.409242606873846, 46.094791282897056,
        54.780634775739316, 63.466518168708724,
    ],
];
const ROOT_2: f64 = std::f64::consts::SQRT_2;
const UNKNOWN: [&str; 12] = ["Lowpass", "low", "cste", "cstepp", "step", "block", "SQRT", "sq", "tap", "error", "4", "-"];
const BAD: [&str; 30] = [
    "1e5", "+1", ".5", "5.", "-", "--1", "-.5", "0x10", "1,5", "1.2.3", "1-", "nan", "NAN", "-NaN", "Inf", "+inf", "infinity", "3FF000000000000",
    "3FF00000000000000", "3FF000000000000G", "-3FF000000000000", "1234567890.123456", "-1234567890123456", "1.000000000000000",
    "0.00000000000000000000001", "1234567890", "0000000001", "10000000000000000", "3a", "1\t2",
];
const GOOD: [&str; 16] = [
    "0", "-0", "-0.0", "00", "0000000000000004", "00000000000000004", "-000000000000001", "000000000000001.5", "123456789012345",
    "-1234567.12345678", "99999999999999.9", "0.0000000000000000000001", "-0.0000000123456789012345", "0.000000000000000",
    "3ff8000000000000", "fFf0000000000001",
];
const BAD_WINDOWS: [&str; 7] = ["Hamming", "hann", "HANNING", "rect", "blackmann", "0", "kaiser"];
const LONGEST_LINE: usize = 8192;

/// Numbers by chance: splitmix64.
struct Dice(u64);

impl Dice {
    fn next(&mut self) -> u64 {
        self.0 = self.0.wrapping_add(0x9E3779B97F4A7C15);
        let z = (self.0 ^ (self.0 >> 30)).wrapping_mul(0xBF58476D1CE4E5B9);
        let z = (z ^ (z >> 27)).wrapping_mul(0x94D049BB133111EB);
        z ^ (z >> 31)
    }
    /// From 0 to n - 1.
    fn below(&mut self, n: u64) -> u64 {
        ((self.next() as u128 * n as u128) >> 64) as u64
    }
    fn from(&mut self, low: u64, high: u64) -> u64 {
        low + self.below(high - low + 1)
    }
    fn one_in(&mut self, n: u64) -> bool {
        self.below(n) == 0
    }
    fn pick<T: Copy>(&mut self, list: &[T]) -> T {
        list[self.below(list.len() as u64) as usize]
    }
    /// From 0 to below 1.
    fn unit(&mut self) -> f64 {
        (self.next() >> 11) as f64 * 2f64.powi(-53)
    }
    fn within(&mut self, span: f64) -> f64 {
        (2.0 * self.unit() - 1.0) * span
    }
    /// The number or one of the floats next to it.
    fn near(&mut self, x: f64) -> f64 {
        f64::from_bits(x.to_bits().wrapping_add(self.below(5)).wrapping_sub(2))
    }
    fn signed(&mut self, x: f64) -> f64 {
        if self.one_in(2) { -x } else { x }
    }
    /// Above 0, of any size that is not extreme.
    fn sized(&mut self) -> f64 {
        (1.0 + self.unit()) * 2f64.powi(self.below(200) as i32 - 100)
    }
    /// Any float: an edge or next to it, any bits, a NaN or infinity, or a usual size.
    fn wild(&mut self) -> f64 {
        match self.below(4) {
            0 => {
                let edge = self.pick(&EDGES);
                let x = self.near(edge);
                self.signed(x)
            }
            1 => f64::from_bits(self.next()),
            2 => self.fault(),
            _ => {
                let x = self.sized();
                self.signed(x)
            }
        }
    }
    fn fault(&mut self) -> f64 {
        let payload = f64::from_bits(self.next() | 0x7FF0000000000001);
        self.pick(&[f64::NAN, f64::NAN, f64::INFINITY, f64::NEG_INFINITY, payload])
    }
}

/// A number as it is written: by its bits, or as digits with some of them after the point.
#[derive(Clone, Copy)]
enum Number {
    Bits(f64),
    Digits(u64, u32),
}
use Number::{Bits, Digits};

impl Number {
    fn value(self) -> f64 {
        match self {
            Bits(x) => x,
            Digits(digits, places) => digits as f64 / 10f64.powi(places as i32),
        }
    }
}

/// The line at hand and what is still to be written.
struct Maker<W: Write> {
    dice: Dice,
    plain: bool,
    left: u64,
    line: Vec<u8>,
    out: W,
}

/// Tokens and lines.
impl<W: Write> Maker<W> {
    fn word(&mut self, word: &str) {
        if !self.line.is_empty() {
            self.line.push(b' ');
        }
        self.line.extend_from_slice(word.as_bytes());
    }

    fn bits(&mut self, x: f64) {
        let small = self.dice.one_in(8);
        if !x.is_finite() && !self.dice.one_in(4) {
            return self.word(if x.is_nan() { "NaN" } else if x > 0.0 { "inf" } else { "-inf" });
        }
        let digits = if small { b"0123456789abcdef" } else { b"0123456789ABCDEF" };
        self.line.push(b' ');
        self.line.extend((0..16).map(|i| digits[(x.to_bits() >> (60 - 4 * i)) as usize & 15]));
    }

    /// With leading zeros at times.
    fn digits(&mut self, digits: u64, places: u32, negative: bool) {
        let zeros = if self.dice.one_in(8) { self.dice.below(20) as usize } else { 0 };
        let power = 10u64.pow(places);
        let sign = if negative { "-" } else { "" };
        write!(self.line, " {sign}{:0zeros$}", digits / power).unwrap();
        if places > 0 {
            write!(self.line, ".{:0width$}", digits % power, width = places as usize).unwrap();
        }
    }

    fn number(&mut self, number: Number) {
        match number {
            Bits(x) => self.bits(x),
            Digits(digits, places) => self.digits(digits, places, false),
        }
    }

    fn whole(&mut self, n: u64) {
        let width = if self.dice.one_in(20) { self.dice.below(10) as usize } else { 0 };
        write!(self.line, " {n:0width$}").unwrap();
    }

    /// A decimal of any shape that the page allows: up to 15 digits, up to 22 after the point, zeros before them.
    fn shaped(&mut self) {
        let length = self.dice.from(0, 15) as u32;
        let digits = if length == 0 { 0 } else { self.dice.from(10u64.pow(length - 1), 10u64.pow(length) - 1) };
        let negative = self.dice.one_in(3);
        if !self.dice.one_in(6) {
            let places = self.dice.from(0, 15) as u32;
            return self.digits(digits, places, negative);
        }
        let zeros = self.dice.from(0, 22 - length.max(1) as u64) as usize;
        let text = format!("{}0.{}{digits}", if negative { "-" } else { "" }, "0".repeat(zeros));
        self.word(&text)
    }

    /// Writes the line; the last one may lack its LF.
    fn end(&mut self) {
        if self.left > 0 {
            let ends: &[&[u8]] = if self.left == 1 && !self.plain { &[b"\n", b"\r\n", b"", b"\r"] } else { &[b"\n"] };
            let end = if ends.len() == 1 && self.dice.one_in(200) { b"\r\n" } else { self.dice.pick(ends) };
            self.line.extend_from_slice(end);
            if self.out.write_all(&self.line).is_err() {
                std::process::exit(1)
            }
            self.left -= 1;
        }
        self.line.clear();
    }

    /// A line with its spaces changed at times.
    fn finish(&mut self) {
        if self.dice.one_in(100) {
            let at = self.line.iter().position(|c| *c == b' ').unwrap_or(0);
            for place in [self.line.len(), at, 0] {
                let spaces = self.dice.below(4) as usize;
                self.line.splice(place..place, std::iter::repeat(b' ').take(spaces));
            }
        }
        self.end()
    }
}

/// Good lines by chance.
impl<W: Write> Maker<W> {
    fn function(&mut self) {
        let name = self.dice.pick(&FUNCTIONS);
        self.word(name);
        let (span, step) = match name {
            "sqrt" | "ln" => (0.0, 0.0),
            "sin" | "cos" | "tan" => (130.0, std::f64::consts::FRAC_PI_4),
            "pow10" => (309.0, std::f64::consts::LOG10_2 / 2.0),
            _ => (711.0, std::f64::consts::LN_2 / 2.0),
        };
        if self.dice.one_in(8) {
            return self.shaped();
        }
        let x = match self.dice.below(8) {
            0 | 1 => self.dice.wild(),
            _ if span == 0.0 => self.positive(),
            // Next to where the reduction changes.
            2 | 3 => {
                let point = (self.dice.within(span) / step).round() * step;
                self.dice.near(point)
            }
            4 => self.dice.within(1.0),
            5 | 6 if matches!(name, "sinh" | "cosh") => self.small(),
            _ => self.dice.within(span),
        };
        self.bits(x)
    }

    /// For sqrt and ln: next to a square, a power of 2 or √2 times one, 1; or any bits above 0.
    fn positive(&mut self) -> f64 {
        let size = self.dice.from(1, 26);
        let whole = self.dice.below(1 << size) as f64;
        let power = 2f64.powi(self.dice.below(2098) as i32 - 1074);
        match self.dice.below(6) {
            0 => self.dice.near(whole * whole),
            1 => self.dice.near(power),
            2 => self.dice.near(power * ROOT_2),
            3 => 1.0 + self.dice.within(0.01),
            _ => f64::from_bits(self.dice.below(0x7FF0000000000000)),
        }
    }

    /// For sinh and cosh: next to 1, where 02's Q-4 changes sinh's rule, or to a power of 2 below it; or of any size from 2^-60 to 2.
    fn small(&mut self) -> f64 {
        let power = 2f64.powi(-(self.dice.from(0, 60) as i32));
        let x = match self.dice.below(4) {
            0 => self.dice.near(1.0),
            1 => self.dice.near(power),
            2 => power * (1.0 + self.dice.unit()),
            _ => 2.0 * self.dice.unit(),
        };
        self.dice.signed(x)
    }

    fn order(&mut self, most: u64) -> u64 {
        match self.dice.below(20) {
            0 => 0,
            1 => self.dice.from(most + 1, 10),
            2 => self.dice.pick(&[9, 10, 100, 255, 256, 257, 65536, 999999999]),
            _ => self.dice.from(1, most),
        }
    }

    fn usual_rate(&mut self) -> Number {
        match self.dice.below(4) {
            0 => Digits(self.dice.from(1_000_000, 100_000_000), 3),
            1 => Bits(1e3 + 99e3 * self.dice.unit()),
            _ => Digits(self.dice.pick(&RATES), 0),
        }
    }

    fn usual_cutoff(&mut self) -> Number {
        match self.dice.below(4) {
            0 => Digits(self.dice.from(10_000, 4_000_000), 3),
            1 => Bits(10.0 + 3990.0 * self.dice.unit()),
            _ => Digits(self.dice.from(10, 4000), 0),
        }
    }

    /// Two frequencies of a crash pulse, the lower first, and a rate above twice both.
    fn usual_frequencies(&mut self) -> [Number; 3] {
        let rate = self.usual_rate();
        let half = rate.value() * 0.5;
        let mut two = [self.usual_cutoff(), self.usual_cutoff()].map(|f| if f.value() < half { f } else { Bits(half * (f.value() / 5000.0)) });
        two.sort_by(|a, b| a.value().total_cmp(&b.value()));
        [two[0], two[1], rate]
    }

    /// Two frequencies, as a rule the lower first, and a rate.
    fn frequencies(&mut self) -> [Number; 3] {
        let rate = if self.dice.one_in(3) { Bits(self.dice.sized()) } else { self.usual_rate() };
        let half = rate.value() * 0.5;
        let (u, v) = (self.dice.unit(), self.dice.unit());
        match self.dice.below(20) {
            0..=7 => self.usual_frequencies(),
            8 | 9 => [self.usual_cutoff(), self.usual_cutoff(), rate],
            10..=12 => [Bits(half * u.min(v)), Bits(half * u.max(v)), rate],
            13 | 14 => [Bits(self.dice.near(half)), Bits(self.dice.near(half)), rate],
            15 => [Bits(self.dice.near(half * u)), Bits(self.dice.near(half * u)), rate],
            16 => [Bits(half * u), Bits(half * u * (1.0 + v * 1e-6)), rate],
            17 => {
                let edge = self.dice.pick(&EDGES);
                [Bits(self.dice.near(edge)), Bits(half * v), rate]
            }
            18 => [Bits(self.dice.wild()), Bits(self.dice.wild()), Bits(self.dice.wild())],
            _ => {
                let mut three = [Bits(half * u.min(v)), Bits(half * u.max(v)), rate];
                three[self.dice.below(3) as usize] = Bits(self.dice.pick(&[f64::NAN, f64::INFINITY, 0.0, -0.0, -1.0, -1000.0, f64::MAX, 5e-324]));
                three
            }
        }
    }

    fn decibels(&mut self, kind: &str, order: u64) -> Number {
        match self.dice.below(8) {
            0 => Bits(self.dice.pick(&[0.0, -0.0, -1.0, 3e-16, 1e-300, 400.0, 3070.0, 3079.0, 3080.0, f64::INFINITY, f64::NEG_INFINITY, f64::NAN])),
            1 => Bits(self.dice.wild()),
            // Usual, and beyond where a of Chebyshev I is 0.
            2 | 3 => Bits(self.dice.pick(&[120.0, 360.0]) * self.dice.unit()),
            4 if self.dice.one_in(2) => Bits(self.extreme_decibels()),
            4 => Bits((1.0 + self.dice.unit()) * 2f64.powi(-(self.dice.from(1, 52) as i32))),
            // About where a is 1, at any distance.
            5 => {
                let distance = 2f64.powi(-(self.dice.from(0, 52) as i32));
                Bits(unit_decibels(kind, order) * (1.0 + self.dice.within(distance)))
            }
            _ => Digits(self.dice.from(1, 10000), 2),
        }
    }

    fn pass(&mut self, kind: &str, order: u64, [low, high, rate]: [Number; 3], decibels: Number) {
        self.word(kind);
        self.whole(order);
        self.number(low);
        if kind == "bandpass" {
            self.number(high);
        } else if kind.starts_with("chebyshev") {
            self.number(decibels);
        }
        self.number(rate);
    }

    /// One that is accepted.
    fn usual_pass(&mut self) {
        self.form();
        let kind = self.dice.pick(&PASSES);
        let order = self.dice.from(1, if kind == "bandpass" { 4 } else { 8 });
        let (frequencies, decibels) = (self.usual_frequencies(), Digits(self.dice.from(1, 10000), 2));
        self.pass(kind, order, frequencies, decibels)
    }

    fn some_pass(&mut self) {
        self.form();
        let kind = self.dice.pick(&PASSES);
        let order = self.order(if kind == "bandpass" { 4 } else { 8 });
        let (frequencies, decibels) = (self.frequencies(), self.decibels(kind, order));
        self.pass(kind, order, frequencies, decibels)
    }

    /// Of a FIR design of some taps; among them cutoffs that make the taps' sum about EPSILON.
    fn share(&mut self, taps: u64) -> Number {
        let shrink = self.dice.pick(&[1.0, 1.0, 0.54, 0.5, 0.42]);
        match self.dice.below(12) {
            0 => Bits(self.dice.near(f64::EPSILON / (2.0 * taps.max(1) as f64 * shrink))),
            1 => Bits(f64::EPSILON * self.dice.unit() * shrink),
            2 => {
                let edge = self.dice.pick(&[0.0, 5e-324, 1e-300, 0.25, 0.5, 0.5, 0.6, 1.0]);
                Bits(self.dice.near(edge))
            }
            3 => Bits(self.dice.wild()),
            4..=7 => Bits(0.5 * self.dice.unit()),
            _ => {
                let places = self.dice.from(1, 15) as u32;
                Digits(self.dice.below(10u64.pow(places) / 2 + 1), places)
            }
        }
    }

    fn fir(&mut self, taps: u64, window: &str) {
        self.word("fir");
        self.whole(taps);
        let share = self.share(taps);
        self.number(share);
        self.word(window);
    }

    fn some_fir(&mut self) {
        let taps = match self.dice.below(16) {
            0 => self.dice.pick(&[0, 65, 66, 128, 256, 4096, 999999999]),
            1..=5 => self.dice.from(1, 8),
            _ => self.dice.from(1, 64),
        };
        let window = self.dice.pick(&WINDOWS);
        self.form();
        self.fir(taps, window)
    }

    fn ready_made(&mut self, taps: u64) {
        self.word("taps");
        let wild = if self.dice.one_in(4) { 10 } else { 1000 };
        for _ in 0..taps {
            self.sample(wild);
        }
    }

    fn some_ready_made(&mut self) {
        let taps = match self.dice.below(40) {
            0..=5 => self.dice.from(0, 70),
            6 => self.dice.from(60, 256),
            _ => self.dice.from(1, 16),
        };
        self.form();
        self.ready_made(taps)
    }

    /// A sample as a recorder has it; one in so many is wild or a dropout.
    fn sample(&mut self, wild: u64) {
        if self.dice.one_in(wild) {
            let x = if self.dice.one_in(2) { self.dice.wild() } else { self.dice.fault() };
            return self.bits(x);
        }
        match self.dice.below(16) {
            0 => self.bits(0.0),
            1 => self.bits(-0.0),
            2 => self.shaped(),
            3..=5 => {
                let (digits, places, negative) = (self.dice.below(100_000), self.dice.below(5) as u32, self.dice.one_in(2));
                self.digits(digits, places, negative)
            }
            _ => {
                let x = self.dice.within(100.0);
                self.bits(x)
            }
        }
    }

    fn block(&mut self, kind: &str, samples: u64, length: u64, wild: u64) {
        self.word(kind);
        self.whole(samples);
        for _ in 0..samples {
            self.sample(wild);
        }
        self.whole(length);
    }

    fn some_block(&mut self, kind: &str, wild: u64) {
        let samples = match self.dice.below(50) {
            0 => self.dice.from(0, 256),
            1..=9 => self.dice.from(0, 20),
            _ => self.dice.from(0, 8),
        };
        let length = match self.dice.below(8) {
            0 => self.dice.from(0, 22),
            1 => samples.saturating_sub(1),
            2..=4 => samples,
            5 if self.dice.one_in(20) => self.dice.from(0, 256),
            _ => (samples + self.dice.below(3)).min(256),
        };
        self.block(kind, samples, length, wild)
    }

    /// About the greatest rate that a channel class refuses; usual; not positive; of any size.
    fn class_rate(&mut self, class: u64) -> Number {
        let limit = greatest_refused(class);
        match self.dice.below(20) {
            0..=3 => Bits(self.dice.near(limit)),
            4 => Bits(limit * (1.0 + self.dice.unit())),
            5 => Bits(limit * self.dice.unit()),
            6..=8 => Bits(self.dice.pick(&[f64::NAN, 0.0, -0.0, -1.0, -10000.0, -5e-324, f64::NEG_INFINITY])),
            9 | 10 => Bits(self.dice.pick(&[f64::INFINITY, f64::MAX, 1e300, 1e12, 1e-300, f64::MIN_POSITIVE, 5e-324])),
            11 => Bits(self.dice.wild()),
            _ => self.usual_rate(),
        }
    }

    fn class_head(&mut self, class: u64, rate: Number, samples: u64) {
        self.word("j211");
        self.whole(class);
        self.number(rate);
        self.whole(samples);
    }

    fn j211(&mut self, class: u64, rate: Number, samples: u64, wild: u64) {
        self.class_head(class, rate, samples);
        for _ in 0..samples {
            self.sample(wild);
        }
    }

    /// As a rule one of the four classes, and a buffer without faults, since a NaN leaves nothing else in it.
    fn some_j211(&mut self) {
        let class = if self.dice.one_in(8) { self.dice.pick(&NO_CLASSES) } else { self.dice.pick(&CLASSES) };
        let rate = self.class_rate(class);
        let samples = if self.dice.one_in(40) { self.dice.from(0, 256) } else { self.dice.from(0, 20) };
        let wild = self.dice.pick(&[10, 1000, 1_000_000]);
        self.j211(class, rate, samples, wild)
    }
}

/// Runs of lines.
impl<W: Write> Maker<W> {
    /// A filter and its steps, blocks and resets, with other lines among them. In some runs every sample is an everyday one.
    fn run(&mut self) {
        let cascade = self.dice.one_in(2);
        let kinds = if cascade { ["cstep", "cblock", "creset"] } else { ["fstep", "fblock", "freset"] };
        match self.dice.below(10) {
            0 if cascade => self.not_finite_pass(),
            0 => self.not_finite_taps(),
            _ if cascade => self.usual_pass(),
            1..=3 => self.some_ready_made(),
            _ => self.some_fir(),
        }
        self.finish();
        let wild = self.dice.pick(&[8, 30, 100, 1_000_000, 1_000_000]);
        for _ in 0..self.dice.from(10, 110) {
            match self.dice.below(100) {
                0..=69 => {
                    self.word(kinds[0]);
                    self.sample(wild)
                }
                70..=91 => self.some_block(kinds[1], wild),
                92..=95 => self.word(kinds[2]),
                96 => self.malformed(),
                _ => self.good(),
            }
            self.finish();
        }
    }

    fn designs(&mut self) {
        for _ in 0..self.dice.from(1, 15) {
            match self.dice.below(10) {
                0..=4 => self.some_pass(),
                5 | 6 => self.some_fir(),
                7 => self.some_ready_made(),
                _ => self.not_finite(),
            }
            self.finish();
        }
    }

    fn functions(&mut self) {
        for _ in 0..self.dice.from(1, 20) {
            self.function();
            self.finish();
        }
    }

    fn classes(&mut self) {
        for _ in 0..self.dice.from(1, 20) {
            self.some_j211();
            self.finish();
        }
    }

    /// A good line of any kind but a design.
    fn good(&mut self) {
        match self.dice.below(6) {
            0 => self.function(),
            1 => {
                let kind = self.dice.pick(&["cblock", "fblock"]);
                self.some_block(kind, 30)
            }
            2 => {
                let kind = self.dice.pick(&["creset", "freset"]);
                self.word(kind)
            }
            3 => self.some_j211(),
            4 => self.some_rival(),
            _ => {
                let kind = self.dice.pick(&["cstep", "fstep"]);
                self.word(kind);
                self.sample(30)
            }
        }
    }

    fn by_chance(&mut self) {
        match self.dice.below(109) {
            0..=19 => self.run(),
            20..=58 => self.designs(),
            59..=79 => self.functions(),
            80..=88 => self.classes(),
            89..=97 => self.rivals(),
            _ => {
                self.malformed();
                self.end()
            }
        }
    }
}

/// Bad lines, and lines that draw no answer.
impl<W: Write> Maker<W> {
    fn malformed(&mut self) {
        match self.dice.below(22) {
            0 => {
                let word = self.dice.pick(&UNKNOWN);
                self.word(word);
                self.sample(10)
            }
            1 => {
                let (taps, window) = (self.dice.from(1, 64), self.dice.pick(&BAD_WINDOWS));
                self.form();
                self.fir(taps, window)
            }
            2 => self.too_many(),
            3 if self.dice.one_in(4) => self.about_longest(),
            4 => self.line.extend_from_slice(b"# a comment 1 2 3"),
            5 => self.line.extend_from_slice(b" # no comment"),
            6 => self.line.resize(self.dice.below(4) as usize, b' '),
            7 => {
                for _ in 0..self.dice.below(60) {
                    let byte = self.byte();
                    self.line.push(byte)
                }
            }
            8 => self.bad_rival(),
            9 | 10 => self.bad_raw(),
            _ => self.mutated(),
        }
    }

    /// Any byte but LF.
    fn byte(&mut self) -> u8 {
        let byte = if self.plain { self.dice.from(32, 126) as u8 } else { self.dice.next() as u8 };
        if byte == b'\n' { b'\t' } else { byte }
    }

    /// More than 256 samples, places or taps, with or without so many tokens.
    fn too_many(&mut self) {
        let many = self.dice.pick(&[257, 257, 258, 300, 1000, 999999999]);
        let taps = self.dice.from(257, 300);
        let kind = self.dice.pick(&["cblock", "fblock"]);
        let (class, rate) = (self.dice.pick(&CLASSES), self.usual_rate());
        match self.dice.below(7) {
            0 => {
                self.form();
                self.ready_made(taps)
            }
            1 => self.block(kind, 257, 257, 1000),
            2 => self.block(kind, 2, many, 1000),
            3 => self.j211(class, rate, 257, 1000),
            4 => {
                self.class_head(class, rate, many);
                self.sample(1000)
            }
            5 => self.too_many_places(many),
            _ => {
                self.word(kind);
                self.whole(many);
                self.sample(1000)
            }
        }
    }

    /// A line of about 8,192 bytes, on either side. A block of the rival's so long is not for a list that is stored.
    fn about_longest(&mut self) {
        let length = LONGEST_LINE - 2 + self.dice.below(5) as usize;
        match self.dice.below(if self.plain { 5 } else { 6 }) {
            0 => self.line.resize(length, b' '),
            1 => self.line.resize(length, b'#'),
            2 => {
                self.line.extend_from_slice(b"sqrt ");
                self.line.resize(length - 1, b'0');
                self.line.push(b'4')
            }
            3 => self.line.resize(length + self.dice.below(20_000) as usize, b'x'),
            4 => {
                self.good();
                self.line.resize(length, b' ')
            }
            _ => {
                self.line.extend_from_slice(b"rival 0 3 04010200");
                self.line.resize(length, b'0')
            }
        }
        if self.dice.one_in(4) {
            self.line.push(b'\r')
        }
    }

    /// A good line with one thing changed.
    fn mutated(&mut self) {
        match self.dice.below(7) {
            0 => self.some_pass(),
            1 => self.some_fir(),
            2 => self.some_ready_made(),
            3 => self.some_j211(),
            4 => self.some_rival(),
            _ => self.good(),
        }
        let starts: Vec<usize> = (0..self.line.len()).filter(|i| self.line[*i] == b' ').collect();
        let start = starts.get(self.dice.below(starts.len().max(1) as u64) as usize).copied().unwrap_or(self.line.len());
        let stop = starts.iter().copied().find(|i| *i > start).unwrap_or(self.line.len());
        let place = self.dice.below(self.line.len() as u64 + 1) as usize;
        let byte = self.byte();
        match self.dice.below(8) {
            0 => drop(self.line.drain(start..stop)),
            1 => self.sample(10),
            2 => self.word("more"),
            3 => drop(self.line.splice(place..place, [byte])),
            4 => drop(self.line.splice(place..(place + 1).min(self.line.len()), [byte])),
            5 => drop(self.line.splice(start..(start + 1).min(self.line.len()), [b'\t'])),
            _ => {
                let bad = format!(" {}", self.dice.pick(&BAD));
                self.line.splice(start..stop, bad.bytes());
            }
        }
    }
}

/// The sweep.
impl<W: Write> Maker<W> {
    fn as_they_are(&mut self, lines: &[&str]) {
        for line in lines {
            self.word(line);
            self.end();
        }
    }

    /// Designs and ready-made taps in both forms, other lines as they are.
    fn lines(&mut self, lines: &[&str]) {
        for line in lines {
            self.word(line);
            if has_forms(line) { self.both() } else { self.end() }
        }
    }

    fn sweep(&mut self) {
        self.lines(&["cstep 1", "fstep 1", "creset", "freset", "cblock 0 0", "fblock 0 0", "cblock 2 1 2 1", "fblock 2 1 2 3"]);
        self.release_sheet();
        for name in FUNCTIONS {
            for edge in EDGES {
                for x in [edge, -edge, self.dice.near(edge), -self.dice.near(edge)] {
                    self.word(name);
                    self.bits(x);
                    self.end();
                }
            }
        }
        self.sweep_hyperbolic();
        for kind in PASSES {
            for order in (0..=10).chain([16, 256, 999999999]) {
                self.at_order(kind, order);
            }
            self.at_edges(kind);
        }
        self.sweep_taps();
        self.sweep_blocks();
        self.sweep_spellings();
        self.sweep_classes();
        self.sweep_class_errors();
        self.sweep_rivals();
        self.sweep_forms();
    }

    /// For 02's Q-4: sinh and cosh at 0, the smallest numbers, 2^-54, 2^-27 and 1, with their neighbours; Chebyshev designs of
    /// each order whose a is below, about and above 1, and 02's own example.
    fn sweep_hyperbolic(&mut self) {
        let around = [-54, -27, 0].map(|k| 2f64.powi(k).to_bits()).into_iter().flat_map(|b| [b - 1, b, b + 1]);
        for x in (0..=3).chain(around).map(f64::from_bits) {
            for (name, x) in [("sinh", x), ("sinh", -x), ("cosh", x), ("cosh", -x)] {
                self.word(name);
                self.bits(x);
                self.end();
            }
        }
        for kind in ["chebyshev1", "chebyshev2"] {
            for order in 1..=8 {
                for factor in [0.99, 1.0, 1.01] {
                    let decibels = Bits(unit_decibels(kind, order) * factor);
                    self.pass(kind, order, [Digits(1000, 0), Digits(0, 0), Digits(10000, 0)], decibels);
                    self.both();
                }
            }
            self.lines(&[&format!("{kind} 8 1000 3 10000"), "cstep 1"]);
        }
    }

    /// Good and bad tokens in several places, ends of lines, comments, too many samples, lines about the longest.
    fn sweep_spellings(&mut self) {
        for word in UNKNOWN.iter().chain(&BAD).chain(&GOOD) {
            self.lines(&[word, &format!("cstep {word}"), &format!("fir {word} 0.25 hamming"), &format!("cblock 1 1 {word}")]);
        }
        for window in BAD_WINDOWS {
            self.lines(&[&format!("fir 3 0.25 {window}")]);
        }
        self.lines(&["", "   ", "#", "# sqrt 4", " # sqrt 4", "\r", "sqrt 4\r", "sqrt 4\r\r", "\tsqrt 4", "sqrt\t4", "sqrt 4\t", "  sqrt   4  "]);
        self.lines(&["sqrt", "sqrt 4 4", "lowpass 2 1000", "fir 3 0.25", "cstep", "creset 1", "cblock", "cblock 1", "fblock 2 1 2", "fblock 1 1 1 1"]);
        self.lines(&["cblock 257", "fblock 257 x", "cblock 1 1 257", "cblock 1 x 257", "fblock x 1 257", "cblock 0 256", "cblock -1 1 1"]);
        for taps in [256, 257] {
            self.ready_made(taps);
            self.both();
        }
        for (start, length) in [("sqrt 4", LONGEST_LINE), ("sqrt 4", LONGEST_LINE + 1), ("#", LONGEST_LINE + 1)] {
            self.lines(&[&format!("{start:length$}")]);
        }
        self.lines(&[&format!("{:LONGEST_LINE$}\r", "sqrt 4"), "sqrt 4"]);
    }

    /// The rows of 01's release sheet that are requests.
    fn release_sheet(&mut self) {
        self.lines(&["taps 0.5 0.25", "fstep 4", "fstep 8", "fstep NaN", "fstep 4", "fstep 8", "freset", "fblock 5 4 8 NaN 4 8 5"]);
        self.lines(&["lowpass 2 500 1000", "cstep 1", "lowpass 2 499 1000", "cstep 1", "lowpass 9 -1 0", "lowpass 8 1 0", "lowpass 8 NaN 0"]);
        self.lines(&["bandpass 2 100 200 0", "fir 0 0.6 hamming", "fir 65 0.6 hamming", "sqrt 4", "sqrt 2"]);
        self.lines(&["lowpass 4 1000 10000", "cblock 3 1 2 3 2", "cblock 3 1 2 3 3", "taps 1 2", "fblock 3 1 2 3 2", "fblock 3 1 2 3 3"]);
    }

    /// A usual design of the order, with a dropout and a reset.
    fn at_order(&mut self, kind: &str, order: u64) {
        let rest = match kind {
            "bandpass" => "1000 2000 10000",
            "chebyshev1" => "1000 0.5 10000",
            "chebyshev2" => "1000 40 10000",
            _ => "1000 10000",
        };
        self.lines(&[&format!("{kind} {order} {rest}"), "cstep 1", "cstep -0", "cstep 12.5", "cstep NaN", "cstep 1", "creset", "cstep 1"]);
    }

    /// Cutoffs about 0 and half the rate; decibels about 0.
    fn at_edges(&mut self, kind: &str) {
        for rate in [1.0, 10000.0, 5e-324, 1.5e-323, 1e300, f64::INFINITY, 0.0, -1.0, f64::NAN] {
            for cutoff in [rate * 0.5, f64::from_bits((rate * 0.5).to_bits().wrapping_sub(1)), 0.0, -1.0, 5e-324, rate * 0.25, f64::NAN, f64::INFINITY] {
                self.word(kind);
                let order = self.dice.from(1, 4);
                self.whole(order);
                self.bits(cutoff);
                match kind {
                    "bandpass" => self.bits(f64::from_bits(cutoff.to_bits().wrapping_add(1))),
                    "chebyshev1" | "chebyshev2" => {
                        let decibels = self.decibels(kind, order);
                        self.number(decibels)
                    }
                    _ => {}
                }
                self.bits(rate);
                self.both();
            }
        }
    }

    /// Every number of taps 0 to 66 with a window, every window at the edges, ready-made taps 0 to 70.
    fn sweep_taps(&mut self) {
        for taps in 0..=66 {
            let share = 0.5 * self.dice.unit();
            self.word("fir");
            self.whole(taps);
            self.bits(share);
            self.word(WINDOWS[taps as usize % 4]);
            self.both();
            self.lines(&["fstep 1", "fstep -2.5"]);
        }
        for window in WINDOWS {
            for share in ["0", "-0", "0.5", "3FDFFFFFFFFFFFFF", "0000000000000001", "3CA0000000000000", "3CA0000000000001", "NaN", "inf", "0.25"] {
                for taps in [1, 2, 5] {
                    self.lines(&[&format!("fir {taps} {share} {window}")]);
                }
            }
        }
        for taps in 0..=70 {
            self.ready_made(taps);
            self.both();
            self.lines(&["fstep 3"]);
        }
    }

    /// Inputs of 0 to 20 samples into outputs of 0 to 22 places, for the cascade and the FIR in turn.
    fn sweep_blocks(&mut self) {
        self.lines(&["chebyshev1 5 800 0.5 10000", "fir 6 0.2 blackman"]);
        for samples in 0..=20 {
            for length in 0..=22 {
                let cascade = (samples + length) % 2 == 0;
                self.block(if cascade { "cblock" } else { "fblock" }, samples, length, 100);
                self.end();
            }
            self.lines(&["creset"]);
        }
    }

    /// Every channel class at rates about its limit and at the ends of the format, other classes, some whole pulses; and that
    /// the current filters stay.
    fn sweep_classes(&mut self) {
        for class in CLASSES {
            let limit = greatest_refused(class);
            let [below, above] = [-1, 1].map(|step| f64::from_bits(limit.to_bits().wrapping_add_signed(step)));
            for rate in [below, limit, above, 0.0, -0.0, -1.0, f64::NAN, f64::NEG_INFINITY, f64::INFINITY, f64::MAX, 5e-324, 20000.0] {
                self.j211(class, Bits(rate), 4, 1_000_000);
                self.end();
            }
            for samples in [0, 1, 2, 3, 256] {
                self.j211(class, Digits(10000, 0), samples, 1_000_000);
                self.end();
            }
        }
        for class in NO_CLASSES {
            for rate in [Digits(10000, 0), Digits(0, 0), Bits(f64::NAN), Digits(1, 0)] {
                self.j211(class, rate, 2, 1000);
                self.end();
            }
        }
        for pulse in ["1 0 0 0 0", "50 50 50 50 50", "-0 -0 -0 -0 -0", "1 NaN 3 4 5", "1 2 3 4 NaN", "inf 2 3 4 5", "1 2 3 -inf 5", "1 2 3 4 inf"] {
            self.lines(&[&format!("j211 60 10000 5 {pulse}"), &format!("j211 1000 4200 5 {pulse}"), &format!("j211 180 inf 5 {pulse}")]);
        }
        self.lines(&["lowpass 2 499 1000", "taps 0.5 0.25", "cstep 1", "fstep 4", "j211 60 10000 3 1 NaN 3", "cstep 1", "fstep 8"]);
        self.lines(&["j211 61 10000 1 NaN", "cstep 1", "fstep 8", "j211 60 10000", "cstep 1", "fstep 8"]);
    }

    /// Of several errors the first that is due, before any refusal; a bad token in each place in turn.
    fn sweep_class_errors(&mut self) {
        self.lines(&["j211", "j211 60", "j211 x 10000", "j211 60 10000 1", "j211 60 10000 0 1", "j211 60 10000 2 1", "j211 60 10000 2 1 2 3"]);
        self.lines(&["j211 60 10000 257", "j211 61 0 257 1", "j211 60 10000 999999999 x", "j211 60 x 257 1", "j211 x 10000 257", "j211 60 10000 256 1"]);
        self.lines(&["j211 -60 10000 1 1", "j211 60.5 10000 1 1", "j211 60 x 1 1", "j211 60 10000 x 1", "j211 60 10000 -1", "j211 60 10000 1.0 1"]);
        self.lines(&["j211 60 10000 1 x", "j211 61 10000 2 1 x", "j211 60 0 1 x", "j211 60 10000 2 x", "j211 60 10000 0 x", "j211 x x x x"]);
        self.lines(&["j211 000000060 10000 000000001 1", "j211 0000000060 10000 1 1", "j211 60 10000 0000000001 1", "J211 60 10000 0", "j21 1", "j2111"]);
        for (i, word) in BAD.iter().enumerate() {
            let mut tokens = ["j211", "60", "10000", "2", "1", "2"];
            tokens[1 + i % 5] = word;
            self.lines(&[&tokens.join(" ")]);
        }
        self.j211(60, Digits(10000, 0), 257, 1_000_000);
        self.end();
    }
}

fn unit_decibels(kind: &str, order: u64) -> f64 {
    UNIT_DECIBELS[(kind == "chebyshev2") as usize][order.clamp(1, 8) as usize - 1]
}

/// The rate whose half is the class × 2.0775.
fn greatest_refused(class: u64) -> f64 {
    2.0 * (class as f64 * 2.0775)
}

fn main() {
    let given: Vec<String> = std::env::args().skip(1).collect();
    let number = |i: usize| given.get(i).and_then(|a| a.parse::<u64>().ok());
    let (Some(lines), Some(seed)) = (number(0), number(1)) else {
        eprintln!("usage: requests LINES SEED [plain]");
        std::process::exit(2)
    };
    let plain = given.get(2).is_some_and(|a| a == "plain");
    let out = BufWriter::with_capacity(1 << 16, std::io::stdout().lock());
    let mut maker = Maker { dice: Dice(seed), plain, left: lines, line: Vec::new(), out };
    maker.sweep();
    while maker.left > 0 {
        maker.by_chance();
    }
    if maker.out.flush().is_err() {
        std::process::exit(1)
    }
}
