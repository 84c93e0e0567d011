// Request lines of the two forms of designs and ready-made taps: what 02's Q-3 refuses in the default form by chance, bad lines with
// `raw`, and their part of the sweep.
use super::{Bits, Digits, Maker, BAD, EDGES, LONGEST_LINE, PASSES, WINDOWS};
use std::f64::consts::PI;
use std::io::Write;

/// One in so many samples is wild: none is.
const NEVER: u64 = u64::MAX;
const FAULTS: [f64; 3] = [f64::NAN, f64::INFINITY, f64::NEG_INFINITY];
/// `raw` in front of what has no raw form, twice, alone, misspelt or in another place.
const BAD_RAW: [&str; 33] = [
    "raw", "raw raw", "raw raw lowpass 4 1000 10000", "raw raw fir 1 0.25 hamming", "raw raw taps 1", "raw raw raw taps 1", "raw cstep 1",
    "raw fstep 1", "raw cblock 1 1 1", "raw fblock 0 0", "raw creset", "raw freset", "raw sqrt 2", "raw pow10 1", "raw j211 60 10000 1 1",
    "raw rival 0 0 04010000", "raw error", "raw unknownword", "raw lowpas 4 1000 10000", "raw Lowpass 4 1000 10000", "raw 4", "raw -",
    "raw # lowpass 4 1000 10000", "rawlowpass 4 1000 10000", "rawtaps 1", "Raw fir 3 0.25 hamming", "RAW taps 1", "ra fir 3 0.25 hamming",
    "raws taps 1", "lowpass raw 4 1000 10000", "taps raw 1", "taps 1 raw", "fir 3 0.25 raw",
];
/// `raw` in front of a design or taps, and an error behind it: of several the first that is due, before any refusal.
const BAD_BEHIND_RAW: [&str; 24] = [
    "raw fir", "raw fir 1", "raw fir 1 0.25", "raw fir x 0.25", "raw fir 1 0.25 hamming hamming", "raw fir 1 x kaiser", "raw fir 1 0.25 kaiser",
    "raw fir 65 0.6 Hamming", "raw lowpass", "raw lowpass 4 1000", "raw lowpass 4 1000 10000 1", "raw lowpass raw 1000 10000",
    "raw lowpass 9 x 0", "raw highpass 4", "raw highpass -4 1000 10000", "raw bandpass 2 1000 10000", "raw bandpass 2 1000 2000 x",
    "raw chebyshev1 4 1000 10000", "raw chebyshev1 4 1000 1e5 10000", "raw chebyshev2 4 1000 40 10000 1", "raw chebyshev2 4.0 1000 40 10000",
    "raw taps x", "raw taps NaN x", "raw taps raw",
];
/// Designs whose coefficients are not all finite, each before one next to it whose coefficients are.
const CASCADES: [[&str; 2]; 8] = [
    ["lowpass 3 7FD5000000000000 7FEFFFFFFFFFFFFF", "lowpass 3 7FD4000000000000 7FEFFFFFFFFFFFFF"],
    ["lowpass 8 7FEFFFFFFFFFFFFF inf", "lowpass 8 7FD4000000000000 inf"],
    ["highpass 4 7FD5000000000000 7FEFFFFFFFFFFFFF", "highpass 4 7FD4000000000000 7FEFFFFFFFFFFFFF"],
    ["bandpass 2 1000 1000.0001 10000", "bandpass 2 1000 1100 10000"],
    ["bandpass 1 7FC0000000000000 7FD5000000000000 7FEFFFFFFFFFFFFF", "bandpass 1 7FC0000000000000 7FD4000000000000 7FEFFFFFFFFFFFFF"],
    ["chebyshev1 5 1000 0000000000000001 10000", "chebyshev1 5 1000 0.00000000000001 10000"],
    ["chebyshev2 3 1000 0000000000000001 10000", "chebyshev2 4 1000 0000000000000001 10000"],
    ["chebyshev2 4 1000 4000 10000", "chebyshev2 1 1000 4000 10000"],
];

/// Whether the line is a design, good or bad, or ready-made taps.
pub fn has_forms(line: &str) -> bool {
    let word = line.split(' ').next().unwrap_or("");
    PASSES.contains(&word) || word == "fir" || word == "taps"
}

/// Both forms.
impl<W: Write> Maker<W> {
    /// Of a line by chance: `raw` or nothing.
    pub(super) fn form(&mut self) {
        if self.dice.one_in(2) {
            self.word("raw");
        }
    }

    /// The line at hand by default, then raw, so that the lines behind them are on the raw one; in the other order at times.
    pub(super) fn both(&mut self) {
        let line = std::mem::take(&mut self.line);
        let raw_first = self.dice.one_in(8);
        for raw in [raw_first, !raw_first] {
            if raw {
                self.line.extend_from_slice(b"raw ");
            }
            self.line.extend_from_slice(&line);
            self.end();
        }
    }
}

/// Lines by chance whose coefficients are as a rule not all finite.
impl<W: Write> Maker<W> {
    pub(super) fn not_finite(&mut self) {
        if self.dice.one_in(2) { self.not_finite_pass() } else { self.not_finite_taps() }
    }

    pub(super) fn not_finite_pass(&mut self) {
        self.form();
        match self.dice.below(3) {
            0 => self.narrow_band(),
            1 => self.extreme_ripple(),
            _ => self.greatest_cutoff(),
        }
    }

    fn narrow_band(&mut self) {
        let (order, rate) = (self.dice.from(1, 4), self.usual_rate());
        let low = rate.value() * 0.49 * (0.01 + 0.99 * self.dice.unit());
        let high = low * (1.0 + (1.0 + self.dice.unit()) * 2f64.powi(-(self.dice.from(10, 51) as i32)));
        self.pass("bandpass", order, [Bits(low), Bits(high), rate], Digits(1, 0))
    }

    fn extreme_ripple(&mut self) {
        let kind = self.dice.pick(&["chebyshev1", "chebyshev2"]);
        let (order, frequencies, decibels) = (self.dice.from(1, 8), self.usual_frequencies(), self.extreme_decibels());
        self.pass(kind, order, frequencies, Bits(decibels))
    }

    /// About where 10 to a tenth of them is 1, or is no longer finite, and beyond.
    pub(super) fn extreme_decibels(&mut self) -> f64 {
        match self.dice.below(6) {
            0 | 1 => 2e-15 * self.dice.unit(),
            2 => 2f64.powi(-(self.dice.from(51, 1074) as i32)),
            3 => 3000.0 + 100.0 * self.dice.unit(),
            4 => 1500.0 + 5000.0 * self.dice.unit(),
            _ => 2f64.powi(self.dice.from(12, 1023) as i32),
        }
    }

    /// Frequencies about the greatest that is finite after it is multiplied by PI.
    fn greatest_cutoff(&mut self) {
        let kind = self.dice.pick(&PASSES);
        let order = self.dice.from(1, if kind == "bandpass" { 4 } else { 8 });
        let limit = f64::MAX / PI;
        let low = if self.dice.one_in(4) { self.dice.near(limit) } else { limit * (0.9 + 0.3 * self.dice.unit()) };
        let high = low * (1.01 + 0.2 * self.dice.unit());
        let rate = self.dice.pick(&[f64::MAX, f64::MAX * 0.9, f64::INFINITY]);
        self.pass(kind, order, [Bits(low), Bits(high), Bits(rate)], Digits(50, 1))
    }

    /// One tap under a window, or ready-made taps of which one is at fault.
    pub(super) fn not_finite_taps(&mut self) {
        self.form();
        if self.dice.one_in(2) {
            let window = self.dice.pick(&WINDOWS);
            return self.fir(1, window);
        }
        let taps = if self.dice.one_in(4) { self.dice.from(1, 66) } else { self.dice.from(1, 8) };
        let place = match self.dice.below(4) {
            0 => 0,
            1 => taps - 1,
            _ => self.dice.below(taps),
        };
        let fault = self.dice.fault();
        self.taps(taps, Some((place, fault)))
    }

    /// Ready-made taps, all finite but for a fault at a place.
    fn taps(&mut self, taps: u64, fault: Option<(u64, f64)>) {
        self.word("taps");
        for i in 0..taps {
            match fault {
                Some((place, x)) if place == i => self.bits(x),
                _ => self.finite_tap(),
            }
        }
    }

    /// An everyday one, or where a rule changes and at the ends of the format.
    fn finite_tap(&mut self) {
        let edge = self.dice.pick(&EDGES);
        if edge.is_finite() && self.dice.one_in(8) {
            let x = self.dice.signed(edge);
            return self.bits(x);
        }
        self.sample(NEVER)
    }
}

/// Bad lines.
impl<W: Write> Maker<W> {
    pub(super) fn bad_raw(&mut self) {
        match self.dice.below(8) {
            0 => {
                self.word("raw");
                self.good()
            }
            1 => {
                self.word("raw raw");
                self.some_pass()
            }
            2 => {
                self.word("raw");
                let taps = self.dice.pick(&[0, 65, 256, 257, 300]);
                self.ready_made(taps)
            }
            3 | 4 => {
                let line = self.dice.pick(&BAD_BEHIND_RAW);
                self.word(line)
            }
            _ => {
                let line = self.dice.pick(&BAD_RAW);
                self.word(line)
            }
        }
    }
}

/// The sweep.
impl<W: Write> Maker<W> {
    pub(super) fn sweep_forms(&mut self) {
        self.sweep_cascade_forms();
        self.sweep_fir_forms();
        self.sweep_taps_forms();
        self.sweep_raw_errors();
    }

    /// A refused default design leaves the blank record, and a raw one runs.
    fn sweep_cascade_forms(&mut self) {
        for [line, next] in CASCADES {
            self.as_they_are(&["lowpass 1 1000 10000", "cstep 1", line, "cstep 1", "cblock 2 1 2 3", "creset"]);
            self.as_they_are(&[&format!("raw {line}"), "cstep 1", "cblock 2 1 NaN 3", "creset", "cstep 1"]);
            self.lines(&[next, "cstep 1", line, "cstep 1"]);
        }
        self.as_they_are(&["lowpass 2 1000 10000", "cstep NaN", "cstep inf", "raw lowpass 2 1000 10000", "cstep 1", "lowpass 2 1000 10000", "cstep 1"]);
    }

    /// The same of one tap and each window, and the earlier checks before 25.
    fn sweep_fir_forms(&mut self) {
        for window in WINDOWS {
            let line = format!("fir 1 0.25 {window}");
            self.as_they_are(&["taps 1 2", "fstep 3", &line, "fstep 3", "fblock 2 1 2 3", "freset"]);
            self.as_they_are(&[&format!("raw {line}"), "fstep 3", "fblock 2 1 NaN 3", "freset", "fstep 3"]);
            self.lines(&[&format!("fir 2 0.25 {window}"), "fstep 3", &line, "fstep 3"]);
            self.lines(&[&format!("fir 1 0.5 {window}"), &format!("fir 1 NaN {window}"), &format!("fir 0 0.25 {window}")]);
        }
    }

    /// Every number of taps that are all finite, then one fault, at the first, the middle or the last place in turn.
    fn sweep_taps_forms(&mut self) {
        for taps in 1..=64 {
            self.taps(taps, None);
            self.both();
            self.lines(&["fstep 3"]);
            let place = [0, taps / 2, taps - 1][taps as usize % 3];
            self.taps(taps, Some((place, FAULTS[taps as usize / 3 % 3])));
            self.both();
            self.lines(&["fstep 3", "freset"]);
        }
        for fault in ["NaN", "inf", "-inf", "7FF0000000000001", "FFFFFFFFFFFFFFFF"] {
            self.lines(&[&format!("taps {fault}"), "fstep 1", &format!("taps {fault} 1 2"), &format!("taps 1 {fault} 2"), "fstep 1"]);
            self.lines(&[&format!("taps 1 2 {fault}"), "fstep 1", &format!("taps {fault} {fault}"), "fblock 2 1 2 2"]);
        }
        self.lines(&["taps 7FEFFFFFFFFFFFFF FFEFFFFFFFFFFFFF", "fstep 2", "fstep 2", "taps 0000000000000001 -0", "fstep 1"]);
        for taps in [65, 256, 257] {
            self.taps(taps, Some((taps / 2, f64::NAN)));
            self.both();
        }
    }

    /// The current filters stay after each error.
    fn sweep_raw_errors(&mut self) {
        self.lines(&["lowpass 2 499 1000", "taps 0.5 0.25"]);
        for line in BAD_RAW.iter().chain(&BAD_BEHIND_RAW) {
            self.as_they_are(&[line]);
            self.lines(&["cstep 1", "fstep 4"]);
        }
        for word in BAD {
            self.as_they_are(&[&format!("raw {word}"), &format!("raw taps {word}"), &format!("raw fir {word} 0.25 hamming")]);
        }
        self.as_they_are(&["raw\ttaps 1", "raw taps\t1", "raw\r", "raw taps 1\r", "  raw   taps   NaN  ", "fstep 1", "raw taps", "fstep 1"]);
        for length in [LONGEST_LINE, LONGEST_LINE + 1] {
            self.as_they_are(&[&format!("{:length$}", "raw taps 1"), &format!("{:length$}", "raw"), "fstep 1"]);
        }
    }
}
