// Channel classes over a whole buffer, written from the text of 02's Q-1. This part is not the published Rust, which has no
// such filter.
use crate::elementary::tan;
use std::f64::consts::PI;

const CLASSES: [usize; 4] = [60, 180, 600, 1000];
const ROOT_2: f64 = f64::from_bits(0x3FF6A09E667F3BCD);
/// 40009EB851EB851F.
const CORNER: f64 = 2.0775;

struct Recurrence {
    a0: f64,
    a1: f64,
    a2: f64,
    b1: f64,
    b2: f64,
}

/// Every operation rounds once, in the order of the text.
fn recurrence(corner: f64, rate: f64) -> Recurrence {
    let w = tan((PI * corner) / rate);
    let d = (1.0 + ROOT_2 * w) + w * w;
    let a0 = (w * w) / d;
    Recurrence { a0, a1: 2.0 * a0, a2: a0, b1: (-2.0 * (w * w - 1.0)) / d, b2: ((-1.0 + ROOT_2 * w) - w * w) / d }
}

/// The places in the order that they come in, each replaced by its answer. The earlier inputs and answers start at +0.
fn pass<'a>(r: &Recurrence, places: impl Iterator<Item = &'a mut f64>) {
    let (mut x1, mut x2, mut y1, mut y2) = (0.0, 0.0, 0.0, 0.0);
    for place in places {
        let x = *place;
        let y = (((r.a0 * x + r.a1 * x1) + r.a2 * x2) + r.b1 * y1) + r.b2 * y2;
        *place = y;
        (x1, x2) = (x, x1);
        (y1, y2) = (y, y1);
    }
}

/// 0, or the refusal number; a refused buffer is unchanged.
pub fn filter(class: usize, rate: f64, buffer: &mut [f64]) -> u8 {
    if !CLASSES.contains(&class) {
        return 21;
    }
    if rate.is_nan() || rate <= 0.0 {
        return 3;
    }
    let corner = class as f64 * CORNER;
    if corner >= rate * 0.5 {
        return 2;
    }
    let r = recurrence(corner, rate);
    pass(&r, buffer.iter_mut());
    pass(&r, buffer.iter_mut().rev());
    0
}
