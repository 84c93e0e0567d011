// Compares the archive of the C interface with the published Rust, call by call: the same call and slices to the archive
// (archive.rs), and to the designs of the published Rust (published.rs) and a model of running and of refusals (model.rs),
// beside which the published filters run; a whole pulse to the oracle's channel classes (j211.rs), and a channel of a block to its
// reading of the rival's blocks (rival.rs). A default form is beside the published Rust and 02's rule of 25, a raw form beside the
// published Rust alone. Returned numbers, counts and every place of every slice must agree: bits, a NaN matching
// any NaN; after a refusal, and where a call may not write, the very bits. Stops at the first difference.
// Usage: compare [CALLS [SEED]]. tests/capi/run builds it as a library and links it with the archive, and once more with a
// deliberately wrong one (wrong.c).
mod archive;
#[allow(dead_code)]
mod cascades;
#[allow(dead_code)]
mod core;
#[allow(dead_code)]
mod current;
mod elementary;
mod j211;
mod maker;
mod model;
mod published;
mod rival;
mod slices;
#[allow(dead_code)]
mod taps;
#[allow(dead_code)]
mod text;

use crate::core::filters::FilterError;
use maker::Dice;
use published::Filters;
use slices::{difference, Call, Function, Function::*, Slices, FUNCTIONS};

const LONGEST_BLOCK: usize = 300;
const LONGEST_IN_PLACE: usize = 600;
const BAD_CALL: u8 = 13;

/// The functions that take a block or a pulse or read a channel, and the most samples that they are asked for.
const BLOCKS: [(Function, usize); 6] = [
    (CascadeBlock, LONGEST_BLOCK),
    (FirBlock, LONGEST_BLOCK),
    (CascadeInPlace, LONGEST_IN_PLACE),
    (FirInPlace, LONGEST_IN_PLACE),
    (J211, LONGEST_IN_PLACE),
    (ReadChannel, LONGEST_BLOCK),
];

/// The number of a Rust error.
fn refusal(error: FilterError) -> u8 {
    match error {
        FilterError::InvalidOrder => 1,
        FilterError::InvalidFrequency => 2,
        FilterError::InvalidSampleRate => 3,
        FilterError::InvalidRipple => 4,
    }
}

/// The functions in their forms: all in the default one, and those that have a raw one in that too.
fn forms() -> impl Iterator<Item = (Function, bool)> {
    let raw = FUNCTIONS.into_iter().filter(|f| f.is_design()).map(|f| (f, true));
    FUNCTIONS.into_iter().map(|f| (f, false)).chain(raw)
}

/// The numbers that each function may return. A raw form never returns 25.
fn numbers(function: Function, raw: bool) -> impl Iterator<Item = u8> {
    let all: &[u8] = match function {
        LowPass | HighPass | BandPass => &[0, 1, 2, 3, 13, 25],
        Chebyshev1 | Chebyshev2 => &[0, 1, 2, 3, 4, 13, 25],
        FirDesign => &[0, 1, 2, 13, 25],
        FirCoeffs => &[0, 1, 13, 25],
        CascadeStep | CascadeInPlace | CascadeReset => &[0, 11, 13],
        CascadeBlock => &[0, 5, 11, 13],
        FirStep | FirInPlace | FirReset => &[0, 12, 13],
        FirBlock => &[0, 5, 12, 13],
        J211 => &[0, 2, 3, 21],
        ReadChannel => &[0, 5, 13, 22, 23, 24],
    };
    all.iter().copied().filter(move |n| !raw || *n != 25)
}

/// What the call of a channel returns, with its output and its count in the slices.
fn read_channel(call: &Call, s: &mut Slices) -> u8 {
    if s.count.len() != 1 {
        return BAD_CALL;
    }
    let (number, samples) = rival::read_channel(&s.block, call.size, &mut s.output);
    if number == 0 {
        s.count[0] = samples;
    }
    number
}

struct Session {
    dice: Dice,
    state: Slices,
    filters: Filters,
    calls: u64,
    /// How often each function returned each number, in its default form and in its raw one.
    tally: [[[u64; 26]; 17]; 2],
    /// How often a raw form made coefficients that are not all finite, of each function.
    not_finite: [u64; 17],
    /// Answers compared, and how many of them were a NaN.
    answers: [u64; 2],
    /// Which lengths ran, of each of BLOCKS.
    lengths: [[bool; LONGEST_IN_PLACE + 1]; 6],
}

impl Session {
    fn new(seed: u64) -> Session {
        let (tally, not_finite) = ([[[0; 26]; 17]; 2], [0; 17]);
        let lengths = [[false; LONGEST_IN_PLACE + 1]; 6];
        Session { dice: Dice(seed), state: Slices::blank(), filters: Filters::default(), calls: 0, tally, not_finite, answers: [0; 2], lengths }
    }

    /// The number and the slices that the call must give. A live call is one on the current state: the published filters
    /// go along with it.
    fn expected(&mut self, call: &Call, before: &Slices, live: bool) -> (u8, Slices) {
        let mut after = before.clone();
        if call.function == J211 {
            return (j211::filter(call.size, call.floats[0], &mut after.buffer), after);
        }
        if call.function == ReadChannel {
            return (read_channel(call, &mut after), after);
        }
        let mut number = model::refusal(call, before);
        if number == 0 && call.function.is_design() {
            match published::design(call, &mut after) {
                Ok(filter) if live => self.filters.replace(call, Some(filter)),
                Ok(_) => {}
                Err(refusal) => number = refusal,
            }
        } else if number == 0 {
            model::run(call, &mut after);
            if live {
                self.filters.run(call, before, &after);
            }
        }
        (number, after)
    }

    fn compare(&mut self, call: &Call, before: Slices, live: bool) -> Result<(), String> {
        let (number, expected) = self.expected(call, &before, live);
        let mut given = before;
        let (returned, within) = archive::call(call, &mut given, self.calls as usize % 8);
        let found = match () {
            _ if returned != number => Some(format!("expected {number}, returned {returned}")),
            _ if !within => Some("a write outside a slice".to_string()),
            _ => difference(call, number != 0, &expected, &given),
        };
        if let Some(found) = found {
            let block = &expected.block[..expected.block.len().min(4)];
            return Err(format!("call {}, {call:?}, counts {:?} and {:?}, block {block:?}: {found}", self.calls, expected.counts, expected.fir_counts));
        }
        self.count(call, number, &given);
        if live {
            self.state = given;
        }
        Ok(())
    }

    fn count(&mut self, call: &Call, number: u8, given: &Slices) {
        self.calls += 1;
        self.tally[call.raw as usize][call.function as usize][number as usize] += 1;
        if number != 0 {
            return;
        }
        if call.raw {
            let places = if call.function.is_cascade() { &given.numbers } else { &given.taps };
            self.not_finite[call.function as usize] += !places.iter().all(|x| x.is_finite()) as u64;
        }
        let answers = match () {
            _ if call.function.is_step() => &given.answer[..],
            _ if call.function.is_block() => &given.output[..given.input.len()],
            _ if call.function.is_in_place() || call.function == J211 => &given.buffer[..],
            _ if call.function == ReadChannel => &given.output[..given.count[0]],
            _ => &[],
        };
        self.answers[0] += answers.len() as u64;
        self.answers[1] += answers.iter().filter(|y| y.is_nan()).count() as u64;
        if let Some(row) = BLOCKS.iter().position(|(f, _)| *f == call.function) {
            self.lengths[row][answers.len()] = true;
        }
    }

    /// A call of the function on the current state.
    fn live(&mut self, function: Function) -> Result<(), String> {
        let mut before = self.state.clone();
        let longest = BLOCKS.iter().find(|(f, _)| *f == function).map_or(0, |(_, longest)| *longest);
        let samples = self.dice.below(longest + 1);
        let call = self.dice.call(function, samples, &mut before);
        self.compare(&call, before, true)
    }

    /// A call with one or two things wrong; the current state stays.
    fn damaged(&mut self) -> Result<(), String> {
        let function = self.dice.function();
        let mut before = self.state.clone();
        let samples = self.dice.below(20);
        let mut call = self.dice.call(function, samples, &mut before);
        self.dice.damage(&mut call, &mut before);
        if self.dice.one_in(3) {
            self.dice.damage(&mut call, &mut before);
        }
        self.compare(&call, before, false)
    }

    /// Leaves the designs: the current state becomes one that no design made.
    fn other_state(&mut self) -> Result<(), String> {
        let cascade = self.dice.one_in(2);
        let function = if cascade { CascadeStep } else { FirStep };
        let call = self.dice.call(function, 0, &mut self.state);
        self.filters.replace(&call, None);
        if cascade {
            self.dice.cascade_state(&mut self.state);
        } else {
            self.dice.fir_state(&mut self.state);
        }
        self.live(function)
    }

    /// At times a reset of a cascade that met a sample that is not finite, so that most answers are numbers.
    fn clean(&mut self) -> Result<(), String> {
        let met = self.state.counts[2] == 1 || !self.state.numbers[5].is_finite();
        if met && self.dice.one_in(3) { self.live(CascadeReset) } else { Ok(()) }
    }

    fn turn(&mut self) -> Result<(), String> {
        self.clean()?;
        match self.dice.below(106) {
            0..=9 => {
                let function = self.dice.pick(&[LowPass, HighPass, BandPass, Chebyshev1, Chebyshev2]);
                self.live(function)
            }
            10..=14 => self.live(FirDesign),
            15..=17 => self.live(FirCoeffs),
            18..=21 => self.other_state(),
            22..=33 => self.live(CascadeStep),
            34..=45 => self.live(FirStep),
            46..=52 => self.live(CascadeBlock),
            53..=58 => self.live(CascadeInPlace),
            59..=64 => self.live(FirBlock),
            65..=70 => self.live(FirInPlace),
            71 => self.live(CascadeReset),
            72..=73 => self.live(FirReset),
            74..=79 => self.live(J211),
            80..=85 => self.live(ReadChannel),
            _ => self.damaged(),
        }
    }

    /// A form of a function and a number that never came, coefficients that are not finite and that no raw form made, or a length
    /// of a block, a pulse or a channel that never ran.
    fn missing(&self) -> Option<String> {
        for (function, raw) in forms() {
            if let Some(number) = numbers(function, raw).find(|n| self.tally[raw as usize][function as usize][*n as usize] == 0) {
                return Some(format!("{function:?}, raw: {raw}, never returned {number}"));
            }
            if raw && self.not_finite[function as usize] == 0 {
                return Some(format!("{function:?}, raw, never made a coefficient that is not finite"));
            }
        }
        for ((function, longest), ran) in BLOCKS.iter().zip(&self.lengths) {
            if let Some(length) = ran[..=*longest].iter().position(|r| !r) {
                return Some(format!("{function:?} never ran over {length} samples"));
            }
        }
        None
    }

    fn report(&self) {
        for (function, raw) in forms() {
            let tally = &self.tally[raw as usize][function as usize];
            let mut row: Vec<String> = numbers(function, raw).map(|n| format!("{n}: {}", tally[n as usize])).collect();
            if raw {
                row.push(format!("not finite: {}", self.not_finite[function as usize]));
            }
            println!("{:<16}{}", format!("{function:?}{}", if raw { ", raw" } else { "" }), row.join(", "));
        }
        println!("{} answers, {} of them a NaN", self.answers[0], self.answers[1]);
    }
}

pub fn main() {
    let given: Vec<u64> = std::env::args().skip(1).map(|a| a.parse().expect("usage: compare [CALLS [SEED]]")).collect();
    let (calls, seed) = (given.first().copied().unwrap_or(300_000), given.get(1).copied().unwrap_or(1));
    let mut session = Session::new(seed);
    while session.calls < calls {
        if let Err(found) = session.turn() {
            println!("DIFFERENT: {found}");
            std::process::exit(1);
        }
    }
    session.report();
    if let Some(missing) = session.missing() {
        println!("too few calls: {missing}");
        std::process::exit(1);
    }
    println!("compare: seed {seed}, {} calls: no difference", session.calls);
}
