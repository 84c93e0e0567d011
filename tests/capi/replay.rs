// Replays the stored answers of the oracle through the archive from Rust, over slices between guard places (archive.rs), and
// compares every number, mark, count and output place. Each block also runs in place, on a copy of the state, and must come to
// the same. It needs nothing but rustc, the archive and the list, whose layout tools/replay.py says: replay.c reads the same
// one.
// Usage: replay LIST. Status 0: all agree; 1: a difference, which is shown, or no list.
mod archive;
#[allow(dead_code)]
mod slices;

use slices::{Call, Function, Slices, FUNCTIONS};
use std::process::ExitCode;

const FIRST_OUTPUT: usize = 1000;
const SHORT_OUTPUT: u8 = 5;

struct Request<'a> {
    function: Function,
    asked: &'a [u64],
    expected: &'a [u64],
}

/// The bits of a number; every NaN's as the list has them.
fn word(x: &f64) -> u64 {
    if x.is_nan() { 0x7FF8_0000_0000_0000 } else { x.to_bits() }
}

fn numbers(words: &[u64]) -> Vec<f64> {
    words.iter().map(|w| f64::from_bits(*w)).collect()
}

/// An output before a call.
fn places(length: u64) -> Vec<f64> {
    (0..length as usize).map(|i| (FIRST_OUTPUT + i) as f64).collect()
}

/// The call, with the input and the output that it brings put into the slices. The first word of a design, or of ready-made
/// taps, is its form: 0 the default one, 1 the raw one.
fn prepared(request: &Request, slices: &mut Slices) -> Call {
    let function = request.function;
    let (form, asked) = request.asked.split_at(function.is_design() as usize);
    let mut call = Call { function, raw: form == [1], size: 0, window: 0, floats: vec![], x: 0.0 };
    if function.is_step() {
        call.x = f64::from_bits(asked[0]);
    } else if function.is_block() {
        slices.input = numbers(&asked[2..]);
        slices.output = places(asked[1]);
    } else if function == Function::FirCoeffs {
        slices.input = numbers(asked);
    } else if function == Function::FirDesign {
        (call.size, call.floats, call.window) = (asked[0] as usize, numbers(&asked[1..2]), asked[2] as usize);
    } else if function.is_cascade_design() {
        (call.size, call.floats) = (asked[0] as usize, numbers(&asked[1..]));
    } else if function == Function::J211 {
        (call.size, call.floats) = (asked[0] as usize, numbers(&asked[1..2]));
        slices.buffer = numbers(&asked[2..]);
    } else if function == Function::ReadChannel {
        call.size = asked[0] as usize;
        slices.output = places(asked[1]);
        slices.block = asked[2..].iter().map(|w| *w as u8).collect();
        slices.count = vec![99];
    }
    call
}

/// The answer's words of a design or of ready-made taps, from the slices that it left. A refused one changed nothing; the
/// list goes on from the blank record.
fn designed(function: Function, refusal: u8, slices: &mut Slices) -> Vec<u64> {
    let blank = Slices::blank();
    if function.is_cascade_design() {
        if refusal != 0 {
            (slices.numbers, slices.counts) = (blank.numbers, blank.counts);
        }
        let (count, has_first) = (slices.counts[0], slices.counts[1]);
        let first = slices.numbers[28..28 + 3 * has_first].iter();
        let sections = slices.numbers.chunks(7).take(count).flat_map(|section| &section[..5]);
        return [refusal as u64, count as u64, has_first as u64].into_iter().chain(first.chain(sections).map(word)).collect();
    }
    if refusal != 0 {
        (slices.taps, slices.samples, slices.fir_counts) = (blank.taps, blank.samples, blank.fir_counts);
    }
    let (length, window) = (slices.fir_counts[0], slices.fir_counts[2]);
    [refusal as u64, length as u64, window as u64].into_iter().chain(slices.taps[..length].iter().map(word)).collect()
}

/// The answer's words, as the list has them.
fn answered(function: Function, refusal: u8, slices: &mut Slices) -> Vec<u64> {
    let clouded = slices.clouded[0] as u64;
    if function.is_design() {
        designed(function, refusal, slices)
    } else if function.is_block() {
        let count = if refusal == 0 { clouded } else { 0 };
        [refusal as u64, count].into_iter().chain(slices.output.iter().map(word)).collect()
    } else if function.is_step() {
        if refusal == 0 { vec![clouded, word(&slices.answer[0])] } else { vec![2, refusal as u64] }
    } else if function == Function::J211 {
        [refusal as u64].into_iter().chain(slices.buffer.iter().map(word)).collect()
    } else if function == Function::ReadChannel {
        let count = if refusal == 0 { slices.count[0] as u64 } else { 0 };
        [refusal as u64, count].into_iter().chain(slices.output.iter().map(word)).collect()
    } else {
        vec![refusal as u64]
    }
}

/// The call of a block once more, in place and on the slices before it, which must come to what it came to: `refusal` and
/// `after`. Where the output was too short it must be accepted, since it has none.
fn in_place(block: &Call, before: &Slices, refusal: u8, after: &Slices) -> Result<(), String> {
    let function = if block.function.is_cascade() { Function::CascadeInPlace } else { Function::FirInPlace };
    let call = Call { function, ..block.clone() };
    let (mut expected, mut given) = (after.clone(), before.clone());
    given.buffer = before.input.clone();
    given.output = after.output.clone();
    expected.buffer = if refusal == 0 { after.output[..before.input.len()].to_vec() } else { before.input.clone() };
    let (number, within) = archive::call(&call, &mut given, 0);
    if !within {
        return Err("in place, a place outside of a slice was written".to_string());
    }
    if number != (if refusal == SHORT_OUTPUT { 0 } else { refusal }) {
        return Err(format!("in place, returned {number}"));
    }
    match slices::difference(&call, refusal != 0, &expected, &given) {
        Some(place) if refusal != SHORT_OUTPUT => Err(format!("in place, {place}")),
        _ => Ok(()),
    }
}

/// Replays a request on the filters that stand in the slices; where it does not agree, what is wrong.
fn replay(request: &Request, slices: &mut Slices) -> Result<(), String> {
    let call = prepared(request, slices);
    let before = slices.clone();
    let (refusal, within) = archive::call(&call, slices, 0);
    if !within {
        return Err("a place outside of a slice was written".to_string());
    }
    if refusal != 0 {
        if let Some(place) = slices::difference(&call, true, &before, slices) {
            return Err(format!("refused by {refusal}, and a slice is changed: {place}"));
        }
    }
    if slices.block != before.block {
        return Err("the block is changed".to_string());
    }
    if call.function.is_block() {
        in_place(&call, &before, refusal, slices)?;
    }
    let given = answered(request.function, refusal, slices);
    if given == request.expected {
        return Ok(());
    }
    Err(format!("expected {:016X?}, given {given:016X?}", request.expected))
}

/// The next request of the list and the words behind it; none where the list ends within it.
fn next(words: &[u64]) -> Option<(u64, &[u64], &[u64], &[u64])> {
    let (head, rest) = words.split_at_checked(3)?;
    let (asked, rest) = rest.split_at_checked(head[1] as usize)?;
    let (expected, rest) = rest.split_at_checked(head[2] as usize)?;
    Some((head[0], asked, expected, rest))
}

/// Replays a list; how many requests agree. The list's kinds are the functions up to `ReadChannel`, and then the elementary
/// functions, which are passed over.
fn replay_all(text: &str) -> Result<usize, String> {
    let words: Vec<u64> = text.split_whitespace().map(|w| u64::from_str_radix(w, 16)).collect::<Result<_, _>>().map_err(|e| e.to_string())?;
    let (count, mut rest) = words.split_first().ok_or("the list is empty")?;
    let (mut slices, mut agree) = (Slices::blank(), 0);
    for line in 1..=*count {
        let (kind, asked, expected, behind) = next(rest).ok_or(format!("request {line} of the list cannot be read"))?;
        if let Some(function) = FUNCTIONS[..=Function::ReadChannel as usize].get(kind as usize) {
            if function.is_design() && !asked.first().is_some_and(|form| *form <= 1) {
                return Err(format!("request {line} of the list has no form"));
            }
            let request = Request { function: *function, asked, expected };
            replay(&request, &mut slices).map_err(|wrong| format!("request {line}, {function:?}: {wrong}"))?;
            agree += 1;
        }
        rest = behind;
    }
    if agree == 0 || !rest.is_empty() {
        return Err("the list holds no request, or more words than its requests".to_string());
    }
    Ok(agree)
}

fn main() -> ExitCode {
    let list = std::env::args().nth(1).ok_or("usage: replay LIST".to_string());
    match list.and_then(|path| std::fs::read_to_string(path).map_err(|e| e.to_string())).and_then(|text| replay_all(&text)) {
        Ok(agree) => {
            println!("replay from Rust: {agree} requests agree with the oracle");
            ExitCode::SUCCESS
        }
        Err(wrong) => {
            println!("replay from Rust: {wrong}");
            ExitCode::FAILURE
        }
    }
}
