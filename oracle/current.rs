// The current filter of a kind, what 01 says around its steps, blocks and resets, and 02's rule on coefficients.
use crate::text::{number, push_float, push_floats, tokens};
use std::io::Write;

const SHORT_OUTPUT: u8 = 5;
const NOT_FINITE: u8 = 25;

/// A published filter, and its mark by 01.
pub trait Filter {
    /// The answer to a sample, and whether it is Clouded.
    fn step(&mut self, x: f64) -> (f64, bool);
    fn reset(&mut self);
}

/// The two forms of a design, or of a set of ready-made taps, by 02's Q-3.
#[derive(Clone, Copy, PartialEq)]
pub enum Form {
    Default,
    Raw,
}

/// What a design, or a set of ready-made taps, comes to.
pub struct Design {
    /// By 01: 0, or the refusal.
    pub refusal: u8,
    /// The same by the Rust, where 01 adds nothing to its checks.
    pub rust: Option<u8>,
    /// The answer and the filter, where the Rust makes one.
    pub made: Option<(Vec<u8>, Box<dyn Filter>)>,
}

impl Design {
    /// 0, or the refusal in this form: 01's, and after it 02's.
    pub fn refused(&self, form: Form) -> u8 {
        match &self.made {
            _ if self.refusal != 0 => self.refusal,
            Some((answer, _)) if form == Form::Default && !all_finite(answer) => NOT_FINITE,
            _ => 0,
        }
    }
}

/// Whether the Rust's own coefficients are all finite: they stand in the answer behind its word and its two counts, and are those
/// of the used parts.
fn all_finite(answer: &[u8]) -> bool {
    tokens(answer)[3..].iter().all(|c| number(c).unwrap().is_finite())
}

/// The current filter, or none for the blank record, on which every call is refused by the number `blank`.
pub struct Current {
    blank: u8,
    filter: Option<Box<dyn Filter>>,
}

impl Current {
    pub fn new(blank: u8) -> Current {
        Current { blank, filter: None }
    }

    /// Stops where the Rust does not refuse just as 01 says.
    pub fn replace(&mut self, design: Design, form: Form, line: u64, out: &mut Vec<u8>) {
        if let Some(rust) = design.rust {
            assert_eq!(rust, design.refusal, "line {line}: refused by the Rust and by 01 (0: accepted)");
        }
        self.filter = None;
        match design.refused(form) {
            0 => {}
            k => return refuse(k, out),
        }
        let (text, filter) = design.made.unwrap_or_else(|| panic!("line {line}: accepted by 01, and the Rust makes nothing"));
        out.extend(text);
        self.filter = Some(filter);
    }

    pub fn step(&mut self, x: f64, out: &mut Vec<u8>) {
        let Some(filter) = &mut self.filter else {
            return refuse(self.blank, out);
        };
        let (y, clouded) = filter.step(x);
        out.extend_from_slice(if clouded { b"clouded " } else { b"clear " });
        push_float(out, y);
    }

    /// The Rust has no blocks: its single updates in order, into the first of the output's places.
    pub fn block(&mut self, xs: &[f64], length: usize, out: &mut Vec<u8>) {
        let mut places = places(length);
        match &mut self.filter {
            None => refuse(self.blank, out),
            Some(_) if length < xs.len() => refuse(SHORT_OUTPUT, out),
            Some(filter) => {
                let mut count = 0;
                for (x, place) in xs.iter().zip(&mut places) {
                    let (y, clouded) = filter.step(*x);
                    *place = y;
                    count += clouded as usize;
                }
                write!(out, "done {count}").unwrap();
            }
        }
        push_floats(out, places);
    }

    pub fn reset(&mut self, out: &mut Vec<u8>) {
        let Some(filter) = &mut self.filter else {
            return refuse(self.blank, out);
        };
        filter.reset();
        out.extend_from_slice(b"done");
    }
}

/// An output before a call.
pub fn places(length: usize) -> Vec<f64> {
    (0..length).map(|i| (1000 + i) as f64).collect()
}

pub fn refuse(number: u8, out: &mut Vec<u8>) {
    write!(out, "refused {number}").unwrap();
}
