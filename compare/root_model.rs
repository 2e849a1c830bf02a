// A MODEL of `near`, `rounds`, `is_root` and `beside` in crates/numbers/src/root.rt, by the same operations: it tells how often the root needs its slow digit loop, which the library does not say. The bench checks that it answers as the library does.

const TWO_52: u64 = 1 << 52;
const TWO_53: u64 = 1 << 53;
const HALF_BITS: u64 = 0x3fe0_0000_0000_0000;
const GUESS_BITS: u64 = 0x3fd7_6d0a_40d7_8ae2;
const UP_BITS: u64 = 0x2000_0000_0000_0000;
const DOWN_BITS: u64 = 0x5fe0_0000_0000_0000;
const CUT: f64 = 201326592.0;

fn near(b: u64) -> f64 {
    let low = b % TWO_53;
    let f = f64::from_bits(low + HALF_BITS);
    let s = f64::from_bits(low / 2 + GUESS_BITS);
    let t = s * s;
    let p = 0.25 * f + t;
    let q = p * p;
    let s = p * (q + 3.0 * f * t) / (3.0 * s * q + s * f * t);
    let h = s + CUT - CUT;
    let half = b / TWO_53 * TWO_52;
    let up = f64::from_bits(half + UP_BITS);
    let down = f64::from_bits(DOWN_BITS - half);
    h * up + (f - h * h) / ((h + s) * down)
}

// Whether the square of r is within r of w * 2^52.
fn rounds(w: u64, r: u64) -> bool {
    let a = r / 0x400_0000;
    let b = r % 0x400_0000;
    let top = w + 2;
    let square = a * a;
    if square > top || top - square > 0x4000_0000 {
        return false;
    }
    let over = (top - square) * 0x200_0000;
    let cross = a * b;
    if cross > over || over - cross > 0x4000_0000 {
        return false;
    }
    let left = (over - cross) * 0x800_0000;
    let most = b * b + (r + TWO_53);
    left <= most && most - left < 2 * r
}

// Whether the double with the bits s is the root of the normal number with the bits b.
fn is_root(b: u64, s: u64) -> bool {
    let q = b / TWO_52;
    let w = (TWO_52 + b % TWO_52) * (2 - q % 2);
    match s.checked_sub((510 + (q + 1) / 2) * TWO_52) {
        Some(r) => r < TWO_53 && rounds(w, r),
        None => false,
    }
}

// The bits of the root of a double above zero: the guess or one of its neighbours. None where the library finds its digits one by one.
pub fn root(x: f64) -> Option<u64> {
    let b = x.to_bits();
    if b < TWO_52 {
        return None;
    }
    let s = near(b);
    if s.is_nan() {
        return None;
    }
    let d = s.to_bits();
    if is_root(b, d) {
        return Some(d);
    }
    if d < TWO_52 || d >= f64::INFINITY.to_bits() {
        return None;
    }
    [d + 1, d - 1].into_iter().find(|&c| is_root(b, c))
}
