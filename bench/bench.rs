// Measures the port's archives beside the published Rust, and whole pulses and the rival's blocks beside the oracle's writing of
// them, in one process, on the same inputs: ordinary numbers from -1 to 1, nothing subnormal, and codes without a dropout. Each
// row first checks that its sides answer the same bits; then they run in turn, and the best time of each is taken. Prints
// Markdown tables. Usage: bench [ROUNDS]; bench/run builds it.
mod port;

use port::Run;
use std::hint::black_box;
use std::time::Instant;

const SAMPLES: usize = 16_384;
const DESIGNS: usize = 500;
const BLOCK: usize = 256;
const BUFFER: usize = 4_096;
const CUTOFF: f64 = 1000.0;
const RATE: f64 = 10_000.0;
const RIPPLE: f64 = 0.5;
const CLASS: usize = 180;
const LIBM: &str = "the Rust over f64 and the C library, other bits";
const TAPS: [usize; 7] = [1, 2, 4, 8, 16, 32, 64];
const LENGTHS: [usize; 6] = [1, 4, 16, 64, 256, 1024];

/// Numbers from -1 to 1, splitmix64.
fn numbers(count: usize, seed: u64) -> Vec<f64> {
    let mut state = seed;
    let number = |_| {
        state = state.wrapping_add(0x9E37_79B9_7F4A_7C15);
        let z = (state ^ (state >> 30)).wrapping_mul(0xBF58_476D_1CE4_E5B9);
        let z = (z ^ (z >> 27)).wrapping_mul(0x94D0_49BB_1331_11EB);
        ((z ^ (z >> 31)) >> 11) as f64 * 2f64.powi(-52) - 1.0
    };
    (0..count).map(number).collect()
}

struct Bench {
    rounds: usize,
    input: Vec<f64>,
    output: Vec<f64>,
}

impl Bench {
    /// The samples in the output too, for the sides in place.
    fn fill(&mut self) {
        self.output.copy_from_slice(&self.input);
    }

    fn bits(&mut self, run: &mut Run) -> Vec<u64> {
        self.fill();
        run(&self.input, &mut self.output);
        self.output.iter().map(|y| y.to_bits()).collect()
    }

    /// The best time of each side, ns a sample.
    fn times<const N: usize>(&mut self, row: &str, mut sides: [Run; N]) -> [f64; N] {
        let expected = self.bits(&mut sides[0]);
        for side in &mut sides[1..] {
            if self.bits(side) != expected {
                println!("{row}: the sides answer different bits");
                std::process::exit(1);
            }
        }
        let mut best = [f64::INFINITY; N];
        for _ in 0..self.rounds {
            for (side, best) in sides.iter_mut().zip(&mut best) {
                self.fill();
                let start = Instant::now();
                side(black_box(&self.input), &mut self.output);
                *best = best.min(start.elapsed().as_nanos() as f64 / SAMPLES as f64);
                black_box(&self.output);
            }
        }
        best
    }

    /// A row of the table: the port against the Rust over both stand-ins.
    fn row(&mut self, name: &str, port: Run, ring: Run, deque: Run) {
        let [p, r, d] = self.times(name, [port, ring, deque]);
        println!("| {name} | {p:.2} | {r:.2} | {:.2} | {d:.2} | {:.2} |", p / r, p / d);
    }

    /// The same where the Rust needs no stand-in.
    fn plain_row(&mut self, name: &str, port: Run, rust: Run) {
        let [p, r] = self.times(name, [port, rust]);
        println!("| {name} | {p:.2} | {r:.2} | {:.2} | | |", p / r);
    }

    fn fir_rows(&mut self) {
        for n in [64, 31, 8] {
            let t = numbers(n, 7);
            self.row(&format!("FIR block of {BLOCK}, {n} taps"), port::fir_blocks(&t, BLOCK), ring(&t), deque(&t));
        }
        for n in [64, 31, 8] {
            let t = numbers(n, 7);
            self.row(&format!("FIR step, {n} taps"), port::fir_steps(&t), ring(&t), deque(&t));
            self.row(&format!("FIR step, {n} taps; the Rust's update behind a call"), port::fir_steps(&t), ring_calls(&t), deque_calls(&t));
            #[cfg(steps)]
            self.row(&format!("FIR step by value, {n} taps"), port::fir_by_value(&t), ring(&t), deque(&t));
        }
    }

    fn cascade_rows(&mut self) {
        for order in [8, 7] {
            let of = |what: &str| format!("cascade {what}, low pass of order {order}");
            self.plain_row(&of(&format!("block of {BLOCK}")), port::cascade_blocks(order, CUTOFF, RATE, BLOCK), lowpass(order));
            self.plain_row(&of("step"), port::cascade_steps(order, CUTOFF, RATE), lowpass(order));
            self.plain_row(&(of("step") + "; the Rust's update behind a call"), port::cascade_steps(order, CUTOFF, RATE), lowpass_calls(order));
            #[cfg(steps)]
            self.plain_row(&of("step by value"), port::cascade_by_value(order, CUTOFF, RATE), lowpass(order));
        }
    }

    fn in_place_rows(&mut self) {
        for n in [64, 31] {
            let t = numbers(n, 7);
            self.row(&format!("FIR block of {BUFFER} in place, {n} taps"), port::fir_in_place(&t, BUFFER), ring_in_place(&t), deque_in_place(&t));
        }
        let name = format!("cascade block of {BUFFER} in place, low pass of order 8");
        self.plain_row(&name, port::cascade_in_place(8, CUTOFF, RATE, BUFFER), lowpass_in_place(8));
    }

    fn pulse_rows(&mut self) {
        for length in [BUFFER, BLOCK] {
            let name = format!("pulse of {length}, channel class {CLASS}, both passes");
            let rust: Run = Box::new(move |_, output| rust_ring::j211(CLASS, RATE, length, output));
            self.plain_row(&name, port::j211(CLASS, RATE, length), rust);
        }
    }

    fn channel_rows(&mut self) {
        for channels in [1, 8] {
            let name = format!("channel of {BUFFER} samples, block of {channels} channel{}", if channels == 1 { "" } else { "s" });
            let (block, channel) = (rival_block(channels, BUFFER), channels / 2);
            let port = port::read_channel(block.clone(), channel, BUFFER);
            self.plain_row(&name, port, Box::new(move |_, output| rust_ring::read_channel(&block, channel, BUFFER, output)));
        }
    }

    /// The best time of each of two makers of DESIGNS designs, ns a design.
    fn design_row(&mut self, name: &str, same: bool, mut port: impl FnMut(), mut rust: impl FnMut()) {
        if !same {
            println!("{name}: the sides design different bits");
            std::process::exit(1);
        }
        let mut best = [f64::INFINITY; 2];
        for _ in 0..self.rounds {
            let sides: [&mut dyn FnMut(); 2] = [&mut port, &mut rust];
            for (side, best) in sides.into_iter().zip(&mut best) {
                let start = Instant::now();
                side();
                *best = best.min(start.elapsed().as_nanos() as f64 / DESIGNS as f64);
            }
        }
        println!("| {name} | {:.0} | {:.0} | {:.2} | | |", best[0], best[1], best[0] / best[1]);
    }

    fn design_rows(&mut self) {
        let same = |raw| port::lowpass_designs(raw, 1, CUTOFF, RATE) == rust_ring::lowpass_bits(CUTOFF, RATE);
        let port = |raw| move || drop(black_box(port::lowpass_designs(raw, DESIGNS, black_box(CUTOFF), black_box(RATE))));
        let name = "design, low pass of order 8 (ns a design)";
        self.design_row(name, same(false), port(false), || rust_ring::lowpass_designs(DESIGNS, CUTOFF, RATE));
        self.design_row(&format!("{name}; the raw form"), same(true), port(true), || rust_ring::lowpass_designs(DESIGNS, CUTOFF, RATE));
        self.design_row(&format!("{name}; {LIBM}"), same(false), port(false), || rust_ring::lowpass_designs_libm(DESIGNS, CUTOFF, RATE));
        let same = port::chebyshev1_designs(1, CUTOFF, RIPPLE, RATE) == rust_ring::chebyshev1_bits(CUTOFF, RIPPLE, RATE);
        let port = || drop(black_box(port::chebyshev1_designs(DESIGNS, black_box(CUTOFF), black_box(RIPPLE), black_box(RATE))));
        let name = "design, Chebyshev I of order 8 (ns a design)";
        self.design_row(name, same, port, || rust_ring::chebyshev1_designs(DESIGNS, CUTOFF, RIPPLE, RATE));
        self.design_row(&format!("{name}; {LIBM}"), same, port, || rust_ring::chebyshev1_designs_libm(DESIGNS, CUTOFF, RIPPLE, RATE));
    }

    fn by_taps(&mut self) {
        println!("\n| taps | block of {BLOCK} | step | Rust (ring) | Rust (VecDeque) |\n|---|---|---|---|---|");
        for n in TAPS {
            let t = numbers(n, 7);
            let [b, s, r, d] = self.times(&format!("{n} taps"), [port::fir_blocks(&t, BLOCK), port::fir_steps(&t), ring(&t), deque(&t)]);
            println!("| {n} | {b:.2} | {s:.2} | {r:.2} | {d:.2} |");
        }
    }

    fn by_length(&mut self) {
        println!("\n| block length | FIR, 31 taps: ns a block | ns a sample | cascade, order 8: ns a block | ns a sample |\n|---|---|---|---|---|");
        let t = numbers(31, 7);
        for length in LENGTHS {
            let row = format!("blocks of {length}");
            let [f, _] = self.times(&row, [port::fir_blocks(&t, length), ring(&t)]);
            let [c, _] = self.times(&row, [port::cascade_blocks(8, CUTOFF, RATE, length), lowpass(8)]);
            println!("| {length} | {:.0} | {f:.2} | {:.0} | {c:.2} |", f * length as f64, c * length as f64);
        }
    }
}

/// A block of the rival's of so many channels and samples, without a dropout.
fn rival_block(channels: usize, samples: usize) -> Vec<u8> {
    let mut block = vec![4, channels as u8];
    block.extend((samples as u16).to_le_bytes());
    block.extend(numbers(channels * samples, 9).iter().flat_map(|x| ((x * 32767.0) as i16).to_le_bytes()));
    block
}

fn ring(taps: &[f64]) -> Run {
    let mut filter = rust_ring::fir(taps);
    Box::new(move |input, output| filter.all(input, output))
}
fn ring_calls(taps: &[f64]) -> Run {
    let mut filter = rust_ring::fir(taps);
    Box::new(move |input, output| filter.calls(input, output))
}
fn ring_in_place(taps: &[f64]) -> Run {
    let mut filter = rust_ring::fir(taps);
    Box::new(move |_, output| filter.in_place(output))
}
fn deque(taps: &[f64]) -> Run {
    let mut filter = rust_deque::fir(taps);
    Box::new(move |input, output| filter.all(input, output))
}
fn deque_calls(taps: &[f64]) -> Run {
    let mut filter = rust_deque::fir(taps);
    Box::new(move |input, output| filter.calls(input, output))
}
fn deque_in_place(taps: &[f64]) -> Run {
    let mut filter = rust_deque::fir(taps);
    Box::new(move |_, output| filter.in_place(output))
}
fn lowpass(order: usize) -> Run {
    let mut filter = rust_ring::lowpass(order, CUTOFF, RATE);
    Box::new(move |input, output| filter.all(input, output))
}
fn lowpass_calls(order: usize) -> Run {
    let mut filter = rust_ring::lowpass(order, CUTOFF, RATE);
    Box::new(move |input, output| filter.calls(input, output))
}
fn lowpass_in_place(order: usize) -> Run {
    let mut filter = rust_ring::lowpass(order, CUTOFF, RATE);
    Box::new(move |_, output| filter.in_place(output))
}

fn main() {
    let rounds = std::env::args().nth(1).map_or(15, |a| a.parse().expect("usage: bench [ROUNDS]"));
    let mut bench = Bench { rounds, input: numbers(SAMPLES, 1), output: vec![0.0; SAMPLES] };
    println!("| row | port, ns a sample | Rust (ring) | port / Rust | Rust (VecDeque) | port / Rust |\n|---|---|---|---|---|---|");
    bench.fir_rows();
    bench.cascade_rows();
    bench.in_place_rows();
    bench.pulse_rows();
    bench.channel_rows();
    bench.design_rows();
    bench.by_taps();
    bench.by_length();
}
