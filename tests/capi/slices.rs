// A call of the C interface and the slices that it is lent, and how slices are compared.

#[derive(Clone, Copy, Debug, PartialEq)]
pub enum Function {
    LowPass,
    HighPass,
    BandPass,
    Chebyshev1,
    Chebyshev2,
    CascadeStep,
    CascadeBlock,
    CascadeReset,
    FirDesign,
    FirCoeffs,
    FirStep,
    FirBlock,
    FirReset,
    J211,
    ReadChannel,
    CascadeInPlace,
    FirInPlace,
}
use Function::*;
pub const FUNCTIONS: [Function; 17] = [
    LowPass, HighPass, BandPass, Chebyshev1, Chebyshev2, CascadeStep, CascadeBlock, CascadeReset, FirDesign, FirCoeffs, FirStep, FirBlock, FirReset,
    J211, ReadChannel, CascadeInPlace, FirInPlace,
];

impl Function {
    pub fn is_cascade_design(self) -> bool {
        matches!(self, LowPass | HighPass | BandPass | Chebyshev1 | Chebyshev2)
    }
    pub fn is_design(self) -> bool {
        self.is_cascade_design() || matches!(self, FirDesign | FirCoeffs)
    }
    /// Whether the call is lent a cascade; else a tap record, but for a whole pulse or a channel, which is lent neither.
    pub fn is_cascade(self) -> bool {
        self.is_cascade_design() || matches!(self, CascadeStep | CascadeBlock | CascadeReset | CascadeInPlace)
    }
    pub fn is_step(self) -> bool {
        matches!(self, CascadeStep | FirStep)
    }
    /// A block over two slices.
    pub fn is_block(self) -> bool {
        matches!(self, CascadeBlock | FirBlock)
    }
    pub fn is_in_place(self) -> bool {
        matches!(self, CascadeInPlace | FirInPlace)
    }
}

/// The arguments that are not slices: an order, a number of taps, a channel class or a channel, a window code, a design's floats
/// or the rate of a pulse, a step's sample. A design, or ready-made taps, has two forms: `raw`, or else the default one.
#[derive(Clone, Debug)]
pub struct Call {
    pub function: Function,
    pub raw: bool,
    pub size: usize,
    pub window: usize,
    pub floats: Vec<f64>,
    pub x: f64,
}

/// All slices; a call is lent those that its function names. Ready-made taps are lent as `input`.
#[derive(Clone)]
pub struct Slices {
    pub numbers: Vec<f64>,
    pub counts: Vec<usize>,
    pub taps: Vec<f64>,
    pub samples: Vec<f64>,
    pub fir_counts: Vec<usize>,
    pub input: Vec<f64>,
    pub output: Vec<f64>,
    pub buffer: Vec<f64>,
    pub answer: Vec<f64>,
    pub clouded: Vec<usize>,
    pub block: Vec<u8>,
    pub count: Vec<usize>,
}

impl Slices {
    pub fn blank() -> Slices {
        let zeros = |n| vec![0.0; n];
        let (counts, fir_counts) = (vec![0; 3], vec![0; 3]);
        let (input, output, buffer, block) = (vec![], vec![], vec![], vec![]);
        let (answer, clouded, count) = (zeros(1), vec![0], vec![0]);
        Slices { numbers: zeros(32), counts, taps: zeros(64), samples: zeros(64), fir_counts, input, output, buffer, answer, clouded, block, count }
    }

    fn floats(&self) -> [(&'static str, &[f64]); 7] {
        [
            ("numbers", &self.numbers),
            ("taps", &self.taps),
            ("samples", &self.samples),
            ("input", &self.input),
            ("output", &self.output),
            ("buffer", &self.buffer),
            ("answer", &self.answer),
        ]
    }

    fn wholes(&self) -> [(&'static str, &[usize]); 4] {
        [("counts", &self.counts), ("counts of the taps", &self.fir_counts), ("clouded", &self.clouded), ("count", &self.count)]
    }

    /// How many places of the output an accepted call answers.
    fn answered(&self, function: Function) -> usize {
        match function {
            CascadeBlock | FirBlock => self.input.len(),
            ReadChannel => self.count[0],
            _ => 0,
        }
    }
}

/// The same bits, or both a NaN.
pub fn same(a: f64, b: f64) -> bool {
    a.to_bits() == b.to_bits() || a.is_nan() && b.is_nan()
}

/// Whether a place must have the very bits: after a refusal all, else those that a call may not write.
fn exact(call: &Call, refused: bool, name: &str, place: usize, answered: usize) -> bool {
    refused || name == "input" || name == "output" && place >= answered || name == "taps" && !call.function.is_design()
}

/// The first place that differs.
pub fn difference(call: &Call, refused: bool, expected: &Slices, given: &Slices) -> Option<String> {
    for ((name, e), (_, g)) in expected.wholes().into_iter().zip(given.wholes()) {
        if e != g {
            return Some(format!("{name}: expected {e:?}, given {g:?}"));
        }
    }
    if let Some(place) = expected.block.iter().zip(&given.block).position(|(e, g)| e != g) {
        return Some(format!("block[{place}]: expected {}, given {}", expected.block[place], given.block[place]));
    }
    let answered = if refused { 0 } else { expected.answered(call.function) };
    for ((name, e), (_, g)) in expected.floats().into_iter().zip(given.floats()) {
        for (place, (a, b)) in e.iter().zip(g).enumerate() {
            let good = if exact(call, refused, name, place, answered) { a.to_bits() == b.to_bits() } else { same(*a, *b) };
            if !good {
                return Some(format!("{name}[{place}]: expected {:016X} ({a:e}), given {:016X} ({b:e})", a.to_bits(), b.to_bits()));
            }
        }
    }
    None
}
