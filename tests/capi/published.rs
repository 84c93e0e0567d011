// The designs by the published Rust, through the oracle's front, as the state that include/pulse.h lays out, and the
// published filters running beside the archive.
use crate::cascades::{self, Kind};
use crate::current::{Design, Filter};
use crate::slices::{same, Call, Function::*, Slices};
use crate::{taps, text};

const NON_FINITE_COEFFICIENT: u8 = 25;
const WINDOWS: [&[u8]; 4] = [b"rectangular", b"hamming", b"hanning", b"blackman"];

/// The published filters that the current states came from; none where a state was not designed.
#[derive(Default)]
pub struct Filters {
    cascade: Option<Box<dyn Filter>>,
    fir: Option<Box<dyn Filter>>,
}

fn asked(call: &Call, s: &Slices) -> Design {
    let pass = |kind| cascades::design(kind, call.size, &call.floats);
    match call.function {
        LowPass => pass(Kind::LowPass),
        HighPass => pass(Kind::HighPass),
        BandPass => pass(Kind::BandPass),
        Chebyshev1 => pass(Kind::Chebyshev1),
        Chebyshev2 => pass(Kind::Chebyshev2),
        FirDesign => taps::design(call.size, call.floats[0], taps::window(WINDOWS[call.window]).unwrap()),
        _ => taps::from_coeffs(&s.input),
    }
}

/// A design whose call is good: 0 and the filter, with the state in the slices; or the number. The default form is refused by 25
/// where the coefficients are not all finite, after 01's checks: 02's Q-3.
pub fn design(call: &Call, s: &mut Slices) -> Result<Box<dyn Filter>, u8> {
    let design = asked(call, s);
    if let Some(rust) = design.rust {
        assert_eq!(rust, design.refusal, "{call:?}: refused by the Rust and by 01 (0: accepted)");
    }
    if design.refusal != 0 {
        return Err(design.refusal);
    }
    let (answer, filter) = design.made.unwrap();
    let tokens = text::tokens(&answer);
    let counts = [1, 2].map(|i| text::count(tokens[i]).unwrap());
    let floats: Vec<f64> = tokens[3..].iter().map(|t| text::number(t).unwrap()).collect();
    if !call.raw && !floats.iter().all(|x| x.is_finite()) {
        return Err(NON_FINITE_COEFFICIENT);
    }
    if call.function.is_cascade() {
        lay_cascade(counts, &floats, s);
    } else {
        s.taps.fill(0.0);
        s.taps[..floats.len()].copy_from_slice(&floats);
        s.samples.fill(0.0);
        s.fir_counts.copy_from_slice(&[counts[0], 0, counts[1]]);
    }
    Ok(filter)
}

/// The oracle's answer has the first-order part in front where there is one, then the sections.
fn lay_cascade([sections, first]: [usize; 2], floats: &[f64], s: &mut Slices) {
    s.numbers.fill(0.0);
    s.counts.copy_from_slice(&[sections, first, 0]);
    let (part, rest) = floats.split_at(3 * first);
    s.numbers[28..28 + part.len()].copy_from_slice(part);
    for (i, section) in rest.chunks(5).enumerate() {
        s.numbers[7 * i..7 * i + 5].copy_from_slice(section);
    }
}

impl Filters {
    fn of(&mut self, call: &Call) -> &mut Option<Box<dyn Filter>> {
        if call.function.is_cascade() { &mut self.cascade } else { &mut self.fir }
    }

    pub fn replace(&mut self, call: &Call, filter: Option<Box<dyn Filter>>) {
        *self.of(call) = filter;
    }

    /// Runs the published filter along with an accepted step, block or reset, whose slices are those before it, and after
    /// it as the model has them. Stops where the model answers otherwise than the published Rust.
    pub fn run(&mut self, call: &Call, before: &Slices, s: &Slices) {
        let Some(filter) = self.of(call) else { return };
        let (xs, ys) = match call.function {
            CascadeStep | FirStep => (&[call.x][..], &s.answer),
            CascadeBlock | FirBlock => (&before.input[..], &s.output),
            CascadeInPlace | FirInPlace => (&before.buffer[..], &s.buffer),
            _ => return filter.reset(),
        };
        let mut clouded = 0;
        for (x, y) in xs.iter().zip(ys) {
            let (rust, mark) = filter.step(*x);
            assert!(same(rust, *y), "{call:?}: the Rust answers {rust:e}, the model {y:e}");
            clouded += mark as usize;
        }
        assert_eq!(clouded, s.clouded[0], "{call:?}: answers Clouded by the oracle and by the model");
    }
}
