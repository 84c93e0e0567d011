// The oracle: answers the request lines of the protocol page on standard input by the published Rust. Marks, refusal numbers,
// limits and blocks are 01's, beside the Rust's filter. A raw design is the Rust's own; a default one is too, unless 02 refuses
// the Rust's coefficients (current.rs). j211 and rival are answered by j211.rs and rival.rs alone, from the text of 02, since the
// Rust has no channel classes and does not read the rival's blocks.
mod cascades;
mod core;
mod current;
mod elementary;
mod j211;
mod rival;
mod taps;
mod text;

use crate::core::filters::FilterError;
use cascades::Kind;
use current::{places, refuse, Current, Form};
use std::io::{BufRead, BufReader, BufWriter, Write};

const LONGEST_LINE: usize = 8192;
const LONGEST_BLOCK: usize = 256;
const BUFFER: usize = 1 << 16;

/// Why a line is not a request.
type Bad = &'static str;
const BAD_NUMBER: Bad = "bad number";
const TOO_MANY: Bad = "too many samples";
const UNKNOWN: Bad = "unknown request";

/// The number of a Rust error.
fn refusal(error: FilterError) -> u8 {
    match error {
        FilterError::InvalidOrder => 1,
        FilterError::InvalidFrequency => 2,
        FilterError::InvalidSampleRate => 3,
        FilterError::InvalidRipple => 4,
    }
}

fn function(word: &[u8]) -> Option<fn(f64) -> f64> {
    Some(match word {
        b"sqrt" => f64::sqrt,
        b"sin" => elementary::sin,
        b"cos" => elementary::cos,
        b"tan" => elementary::tan,
        b"exp" => elementary::exp,
        b"ln" => elementary::ln,
        b"sinh" => elementary::sinh,
        b"cosh" => elementary::cosh,
        b"pow10" => elementary::pow10,
        _ => return None,
    })
}

fn number(token: &[u8]) -> Result<f64, Bad> {
    text::number(token).ok_or(BAD_NUMBER)
}

fn numbers(tokens: &[&[u8]]) -> Result<Vec<f64>, Bad> {
    tokens.iter().map(|t| number(t)).collect()
}

fn count(token: &[u8]) -> Result<usize, Bad> {
    text::count(token).ok_or(BAD_NUMBER)
}

fn want(right: bool) -> Result<(), Bad> {
    if right { Ok(()) } else { Err("wrong number of tokens") }
}

/// The two current filters, and the number of the line at hand.
struct Bench {
    cascade: Current,
    taps: Current,
    line: u64,
}

impl Bench {
    /// By the first letter of a step, block or reset.
    fn current(&mut self, word: &[u8]) -> &mut Current {
        if word[0] == b'c' { &mut self.cascade } else { &mut self.taps }
    }

    fn answer(&mut self, word: &[u8], rest: &[&[u8]], out: &mut Vec<u8>) -> Result<(), Bad> {
        match word {
            b"raw" => {
                let (word, rest) = rest.split_first().ok_or(UNKNOWN)?;
                self.design(Form::Raw, word, rest, out)
            }
            b"cstep" | b"fstep" => {
                want(rest.len() == 1)?;
                let x = number(rest[0])?;
                Ok(self.current(word).step(x, out))
            }
            b"cblock" | b"fblock" => self.block(word, rest, out),
            b"j211" => self.j211(rest, out),
            b"rival" => self.rival(rest, out),
            b"creset" | b"freset" => {
                want(rest.is_empty())?;
                Ok(self.current(word).reset(out))
            }
            _ => match function(word) {
                None => self.design(Form::Default, word, rest, out),
                Some(f) => {
                    want(rest.len() == 1)?;
                    Ok(text::push_float(out, f(number(rest[0])?)))
                }
            },
        }
    }

    /// A design or ready-made taps; any other word is unknown.
    fn design(&mut self, form: Form, word: &[u8], rest: &[&[u8]], out: &mut Vec<u8>) -> Result<(), Bad> {
        match word {
            b"lowpass" => self.cascade(form, Kind::LowPass, rest, out),
            b"highpass" => self.cascade(form, Kind::HighPass, rest, out),
            b"bandpass" => self.cascade(form, Kind::BandPass, rest, out),
            b"chebyshev1" => self.cascade(form, Kind::Chebyshev1, rest, out),
            b"chebyshev2" => self.cascade(form, Kind::Chebyshev2, rest, out),
            b"fir" => self.fir(form, rest, out),
            b"taps" => self.ready_made(form, rest, out),
            _ => Err(UNKNOWN),
        }
    }

    fn cascade(&mut self, form: Form, kind: Kind, rest: &[&[u8]], out: &mut Vec<u8>) -> Result<(), Bad> {
        want(rest.len() == 1 + kind.floats())?;
        let (order, v) = (count(rest[0])?, numbers(&rest[1..])?);
        Ok(self.cascade.replace(cascades::design(kind, order, &v), form, self.line, out))
    }

    fn fir(&mut self, form: Form, rest: &[&[u8]], out: &mut Vec<u8>) -> Result<(), Bad> {
        want(rest.len() == 3)?;
        let (taps, cutoff) = (count(rest[0])?, number(rest[1])?);
        let window = taps::window(rest[2]).ok_or("unknown window")?;
        Ok(self.taps.replace(taps::design(taps, cutoff, window), form, self.line, out))
    }

    fn ready_made(&mut self, form: Form, rest: &[&[u8]], out: &mut Vec<u8>) -> Result<(), Bad> {
        if rest.len() > LONGEST_BLOCK {
            return Err(TOO_MANY);
        }
        let v = numbers(rest)?;
        Ok(self.taps.replace(taps::from_coeffs(&v), form, self.line, out))
    }

    fn block(&mut self, word: &[u8], rest: &[&[u8]], out: &mut Vec<u8>) -> Result<(), Bad> {
        want(!rest.is_empty())?;
        let samples = count(rest[0])?;
        if samples > LONGEST_BLOCK {
            return Err(TOO_MANY);
        }
        want(rest.len() == samples + 2)?;
        let v = numbers(&rest[1..=samples])?;
        let length = count(rest[samples + 1])?;
        if length > LONGEST_BLOCK {
            return Err(TOO_MANY);
        }
        Ok(self.current(word).block(&v, length, out))
    }

    /// Touches neither current filter.
    fn j211(&self, rest: &[&[u8]], out: &mut Vec<u8>) -> Result<(), Bad> {
        want(rest.len() >= 3)?;
        let (class, rate, samples) = (count(rest[0])?, number(rest[1])?, count(rest[2])?);
        if samples > LONGEST_BLOCK {
            return Err(TOO_MANY);
        }
        want(rest.len() == samples + 3)?;
        let mut buffer = numbers(&rest[3..])?;
        match j211::filter(class, rate, &mut buffer) {
            0 => out.extend_from_slice(b"done"),
            k => refuse(k, out),
        }
        Ok(text::push_floats(out, buffer))
    }

    /// Touches neither current filter.
    fn rival(&self, rest: &[&[u8]], out: &mut Vec<u8>) -> Result<(), Bad> {
        want(rest.len() == 3)?;
        let (channel, length) = (count(rest[0])?, count(rest[1])?);
        if length > LONGEST_BLOCK {
            return Err(TOO_MANY);
        }
        let block = text::pairs(rest[2]).ok_or(BAD_NUMBER)?;
        let mut output = places(length);
        match rival::read_channel(&block, channel, &mut output) {
            (0, samples) => write!(out, "done {samples}").unwrap(),
            (k, _) => refuse(k, out),
        }
        Ok(text::push_floats(out, output))
    }

    /// The answer to a line without its end; nothing for a blank line or a comment.
    fn reply(&mut self, line: &[u8], out: &mut Vec<u8>) {
        let answer = if line.len() > LONGEST_LINE {
            Err("line too long")
        } else if line.first() == Some(&b'#') {
            Ok(())
        } else {
            match text::tokens(line).split_first() {
                None => Ok(()),
                Some((word, rest)) => self.answer(word, rest, out),
            }
        };
        if let Err(bad) = answer {
            write!(out, "error {bad}").unwrap();
        }
    }
}

/// A line without its LF, and without the CR before it.
fn without_end(line: &[u8]) -> &[u8] {
    match line.strip_suffix(b"\n") {
        None => line,
        Some(rest) => rest.strip_suffix(b"\r").unwrap_or(rest),
    }
}

fn main() -> std::io::Result<()> {
    let mut bench = Bench { cascade: Current::new(11), taps: Current::new(12), line: 0 };
    let mut input = BufReader::with_capacity(BUFFER, std::io::stdin().lock());
    let mut output = BufWriter::with_capacity(BUFFER, std::io::stdout().lock());
    let (mut line, mut answer) = (Vec::new(), Vec::new());
    while input.read_until(b'\n', &mut line)? > 0 {
        bench.line += 1;
        bench.reply(without_end(&line), &mut answer);
        if !answer.is_empty() {
            answer.push(b'\n');
            output.write_all(&answer)?;
        }
        line.clear();
        answer.clear();
    }
    output.flush()
}
