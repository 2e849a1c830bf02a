// Times the library beside the Rust, both through calls that cannot be inlined, on the same inputs in one run.
#[allow(dead_code)]
mod random;
mod root_model;
mod timing;

use random::{Random, power_of_two, step};
use reference::{Angle, Standins};
use std::f64::consts::PI;
use std::hint::black_box;
use timing::best;

extern "C" {
    fn numbers_sqrt(x: f64) -> f64;
    fn numbers_sin(x: f64) -> f64;
    fn numbers_cos(x: f64) -> f64;
    fn numbers_atan2(y: f64, x: f64) -> f64;
    fn numbers_asin(x: f64) -> f64;
    fn numbers_rem(x: f64, y: f64) -> f64;
    fn numbers_normalised_to(x: f64, max: f64) -> f64;
}

#[inline(never)]
extern "C" fn rust_sqrt(x: f64) -> f64 {
    x.sqrt()
}

#[inline(never)]
extern "C" fn rust_sin(x: f64) -> f64 {
    x.std_sin()
}

#[inline(never)]
extern "C" fn rust_cos(x: f64) -> f64 {
    x.std_cos()
}

#[inline(never)]
extern "C" fn rust_atan2(y: f64, x: f64) -> f64 {
    y.std_atan2(x)
}

#[inline(never)]
extern "C" fn rust_asin(x: f64) -> f64 {
    x.std_asin()
}

// By the C library's fmod.
#[inline(never)]
extern "C" fn rust_rem(x: f64, y: f64) -> f64 {
    x % y
}

#[inline(never)]
extern "C" fn rust_normalised_to(x: f64, max: f64) -> f64 {
    Angle { radians: x }.normalised_to(Angle { radians: max }).radians
}

type One = unsafe extern "C" fn(f64) -> f64;
type Two = unsafe extern "C" fn(f64, f64) -> f64;

const INPUTS: usize = 100_000;
const ROUNDS: usize = 40;
const COUNTED: u64 = 10_000_000;

fn row(name: &str, inputs: &str, rust: impl Fn(usize) -> f64, rattle: impl Fn(usize) -> f64) {
    let (rust, rattle) = best(name, INPUTS, ROUNDS, |i| rust(i).to_bits(), |i| rattle(i).to_bits());
    println!("{name:<13} {inputs:<44} {rust:>8.2} {rattle:>8.2} {:>7.2}", rattle / rust);
}

fn one(name: &str, inputs: &str, rust: One, rattle: One, x: impl FnMut(usize) -> f64) {
    let xs: Vec<f64> = (0..INPUTS).map(x).collect();
    let (rust, rattle) = (black_box(rust), black_box(rattle));
    row(name, inputs, |i| unsafe { rust(xs[i]) }, |i| unsafe { rattle(xs[i]) });
}

fn two(name: &str, inputs: &str, rust: Two, rattle: Two, yx: impl FnMut(usize) -> (f64, f64)) {
    let yxs: Vec<(f64, f64)> = (0..INPUTS).map(yx).collect();
    let (rust, rattle) = (black_box(rust), black_box(rattle));
    row(name, inputs, |i| unsafe { rust(yxs[i].0, yxs[i].1) }, |i| unsafe { rattle(yxs[i].0, yxs[i].1) });
}

fn finite_above_zero(r: &mut Random) -> f64 {
    f64::from_bits(1 + r.below(0x7fef_ffff_ffff_ffff))
}

// Remainders and normalised angles, by how large the quotient is.
fn remainders(r: &mut Random) {
    let turn = 2.0 * PI;
    let full = |size: f64, r: &mut Random| (r.between(-size, size), turn);
    two("rem", "x below y", rust_rem, numbers_rem, |_| (r.between(-1.0, 1.0), r.between(1.0, 2.0)));
    two("rem", "quotients of 1 to 4", rust_rem, numbers_rem, |_| {
        let y = r.between(1.0, 2.0);
        (y * r.between(1.0, 4.0), y)
    });
    two("rem", "-1000 to 1000 by 2 PI", rust_rem, numbers_rem, |_| full(1e3, r));
    two("rem", "-1e8 to 1e8 by 2 PI", rust_rem, numbers_rem, |_| full(1e8, r));
    two("rem", "-1e16 to 1e16 by 2 PI", rust_rem, numbers_rem, |_| full(1e16, r));
    two("rem", "random exponents", rust_rem, numbers_rem, |_| (finite_above_zero(r), finite_above_zero(r)));
    two("rem", "about 1e300 by about 1e-300", rust_rem, numbers_rem, |_| (r.between(1e300, 2e300), r.between(1e-300, 2e-300)));
    two("rem", "the largest by the least", rust_rem, numbers_rem, |_| (f64::MAX, f64::from_bits(1)));
    two("normalised_to", "-2 PI to 2 PI, to 2 PI", rust_normalised_to, numbers_normalised_to, |_| full(turn, r));
    two("normalised_to", "-1000 to 1000, to 2 PI", rust_normalised_to, numbers_normalised_to, |_| full(1e3, r));
    two("normalised_to", "-1e16 to 1e16, to 2 PI", rust_normalised_to, numbers_normalised_to, |_| full(1e16, r));
}

fn times(r: &mut Random) {
    println!("{:<13} {:<44} {:>8} {:>8} {:>7}", "", "inputs", "Rust ns", "Rattle ns", "ratio");
    for (name, rust, rattle) in [("sin", rust_sin as One, numbers_sin as One), ("cos", rust_cos, numbers_cos)] {
        one(name, "angles in -10 to 10", rust, rattle, |_| r.between(-10.0, 10.0));
        one(name, "angles in -64 to 64", rust, rattle, |_| r.between(-64.0, 64.0));
    }
    two("atan2", "points of the unit square", rust_atan2, numbers_atan2, |_| (r.between(-1.0, 1.0), r.between(-1.0, 1.0)));
    two("atan2", "points on many scales", rust_atan2, numbers_atan2, |_| {
        let scale = power_of_two(r.about(60));
        (r.between(-1.0, 1.0) * scale, r.between(-1.0, 1.0) * scale)
    });
    one("asin", "-1 to 1", rust_asin, numbers_asin, |_| r.between(-1.0, 1.0));
    one("sqrt", "0 to 1000", rust_sqrt, numbers_sqrt, |_| r.between(0.0, 1000.0));
    one("sqrt", "random exponents", rust_sqrt, numbers_sqrt, |_| finite_above_zero(r));
    one("sqrt", "sums of squares of earth-like coordinates", rust_sqrt, numbers_sqrt, |_| {
        let [x, y, z] = [0; 3].map(|_| r.between(-7e6, 7e6));
        x * x + y * y + z * z
    });
}

// How often the root falls back to its digit loop, by the model, which must answer as the library does.
#[derive(Default)]
struct FallBacks {
    count: u64,
    slow: u64,
    wrong: u64,
}

impl FallBacks {
    fn root(&mut self, x: f64) {
        self.count += 1;
        match root_model::root(x) {
            None => self.slow += 1,
            Some(bits) => self.wrong += (bits != unsafe { numbers_sqrt(x) }.to_bits()) as u64,
        }
    }

    // The whole numbers that are doubles.
    fn whole(&mut self, w: u64) {
        if w < 1 << 53 || w % 2 == 0 {
            self.root(w as f64);
        }
    }

    fn report(&self, of: &str) -> bool {
        println!("{of:<52} {:>9} inputs {:>8} fall back {:>8} of the rest not as the library", self.count, self.slow, self.wrong);
        self.wrong == 0
    }
}

fn fall_backs(r: &mut Random) -> bool {
    println!("how often sqrt needs its digit loop, by a model of its test");
    let mut random = FallBacks::default();
    for _ in 0..COUNTED {
        random.root(f64::from_bits((1 << 52) + r.below(0x7fe0_0000_0000_0000)));
    }
    let mut squares = FallBacks::default();
    for _ in 0..COUNTED {
        let k = ((1 << 25) + r.below((1 << 27) - (1 << 25))) as f64;
        squares.root(step(k * k, r.about(1)));
    }
    let mut edges = FallBacks::default();
    for edge in [1u64 << 52, 1 << 53, 1 << 54] {
        for w in edge - 1_000_000..=edge + 1_000_000 {
            if (1 << 52..1 << 54).contains(&w) {
                edges.whole(w);
            }
        }
    }
    let fine = random.report("random bits of normal numbers");
    let fine = squares.report("squares of 26 and 27 bits, and beside") && fine;
    edges.report("whole numbers beside 2^52, 2^53 and 2^54") && fine
}

fn main() {
    let mut r = Random(20261115);
    times(&mut r);
    remainders(&mut r);
    println!();
    std::process::exit(if fall_backs(&mut r) { 0 } else { 1 });
}
