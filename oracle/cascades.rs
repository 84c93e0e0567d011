// The five cascade designs by the published butterworth.rs and chebyshev.rs, beside 01's checks; what the forms of 02's Q-3 add is in
// current.rs.
use crate::core::filters::butterworth::*;
use crate::core::filters::chebyshev::*;
use crate::current::{Design, Filter};
use crate::elementary::Port;
use crate::refusal;
use std::fmt::Debug;

#[derive(Clone, Copy, PartialEq)]
pub enum Kind {
    LowPass,
    HighPass,
    BandPass,
    Chebyshev1,
    Chebyshev2,
}

impl Kind {
    /// How many floats follow the order.
    pub fn floats(self) -> usize {
        if matches!(self, Kind::LowPass | Kind::HighPass) { 2 } else { 3 }
    }
}

/// The published types' common methods.
trait Published: Debug + 'static {
    fn update(&mut self, x: Port) -> Port;
    fn reset(&mut self);
}
macro_rules! published {
    ($($name:ident)*) => { $(
        impl<const N: usize> Published for $name<Port, N> {
            fn update(&mut self, x: Port) -> Port { $name::update(self, x) }
            fn reset(&mut self) { $name::reset(self) }
        }
    )* };
}
published! { ButterworthLp ButterworthHp ButterworthBp ChebyshevI ChebyshevII }

/// Clouded from the first sample that is not finite until reset.
struct Cascade<F> {
    filter: F,
    clouded: bool,
}
impl<F: Published> Filter for Cascade<F> {
    fn step(&mut self, x: f64) -> (f64, bool) {
        self.clouded |= !x.is_finite();
        (self.filter.update(Port(x)).0, self.clouded)
    }
    fn reset(&mut self) {
        self.filter.reset();
        self.clouded = false;
    }
}

/// `cascade COUNT FLAG`, then the coefficients. They are private, so they come from the Debug form, where a number is its
/// bit pattern: the sections in order, then the first-order part.
fn describe(filter: &impl Debug) -> Vec<u8> {
    let text = format!("{filter:?}");
    let mut words = text.split(|c: char| !c.is_alphanumeric() && c != '_').filter(|w| !w.is_empty());
    let names = ["b0", "b1", "b2", "a1", "a2"];
    let mut found: [Vec<&str>; 5] = Default::default();
    let mut count = 0;
    while let Some(word) = words.next() {
        if let Some(place) = names.iter().position(|n| *n == word) {
            found[place].push(words.next().unwrap());
        } else if word == "n_biquads" {
            count = words.next().unwrap().parse().unwrap();
        }
    }
    let [b0, b1, b2, a1, a2] = found;
    let sections = b2.len();
    let flag = b0.len() > sections;
    let mut answer = format!("cascade {count} {}", flag as u8);
    if flag {
        answer += &format!(" {} {} {}", b0[sections], b1[sections], a1[sections]);
    }
    for i in 0..count {
        answer += &format!(" {} {} {} {} {}", b0[i], b1[i], b2[i], a1[i], a2[i]);
    }
    answer.into_bytes()
}

/// What 01's tables and orders of checks say: 0, or the number.
fn by_01(kind: Kind, n: usize, v: &[f64]) -> u8 {
    let rate = v[v.len() - 1];
    let bad_rate = rate.is_nan() || rate <= 0.0;
    if kind == Kind::BandPass {
        let (low, high) = (v[0], v[1]);
        return match () {
            _ if n == 0 || n > 4 => 1,
            _ if low.is_nan() || high.is_nan() || low <= 0.0 || high <= low || high >= rate * 0.5 => 2,
            _ if bad_rate => 3,
            _ => 0,
        };
    }
    match () {
        _ if n == 0 || n > 8 => 1,
        _ if bad_rate => 3,
        _ if v[0].is_nan() || v[0] <= 0.0 || v[0] >= rate * 0.5 => 2,
        _ if v.len() == 3 && (v[1].is_nan() || v[1] <= 0.0) => 4,
        _ => 0,
    }
}

/// The design at each order; 100 stands for every order above 9.
macro_rules! by_order {
    ($n:expr, $design:ident $args:tt) => {
        by_order!($n, $design $args, 0 1 2 3 4 5 6 7 8 9)
    };
    ($n:expr, $design:ident $args:tt, $($order:literal)*) => {
        match $n {
            $( $order => made($design::<Port, $order> $args), )*
            _ => made($design::<Port, 100> $args),
        }
    };
}

type Made = Result<(Vec<u8>, Box<dyn Filter>), u8>;

fn made(result: Result<impl Published, crate::core::filters::FilterError>) -> Made {
    let filter = result.map_err(refusal)?;
    Ok((describe(&filter), Box::new(Cascade { filter, clouded: false })))
}

/// The Rust's own design beside 01's checks.
pub fn design(kind: Kind, n: usize, v: &[f64]) -> Design {
    let p: Vec<Port> = v.iter().map(|x| Port(*x)).collect();
    let made = match kind {
        Kind::LowPass => by_order!(n, design_butterworth_lp(p[0], p[1])),
        Kind::HighPass => by_order!(n, design_butterworth_hp(p[0], p[1])),
        Kind::BandPass => by_order!(n, design_butterworth_bp(p[0], p[1], p[2])),
        Kind::Chebyshev1 => by_order!(n, design_chebyshev1_lp(p[0], p[1], p[2])),
        Kind::Chebyshev2 => by_order!(n, design_chebyshev2_lp(p[0], p[1], p[2])),
    };
    let nan = v.iter().any(|x| x.is_nan());
    let rust = made.as_ref().err().copied().unwrap_or(0);
    Design { refusal: by_01(kind, n, v), rust: (!nan).then_some(rust), made: made.ok() }
}
