// The stand-ins for std's functions on doubles, by the words of document 01: every step is one rounded operation, in the order said there.
use std::f64::consts::PI;

pub trait Standins {
    fn std_sqrt(self) -> f64;
    fn std_sin(self) -> f64;
    fn std_cos(self) -> f64;
    fn std_atan2(self, x: f64) -> f64;
    fn std_asin(self) -> f64;
    fn std_powf(self, e: f64) -> f64;
    fn std_to_radians(self) -> f64;
    fn std_to_degrees(self) -> f64;
}

const fn factorial(n: u64) -> u64 {
    if n == 0 { 1 } else { n * factorial(n - 1) }
}

// (-1)^k / divisor, one division.
const fn signed(k: usize, divisor: u64) -> f64 {
    (if k % 2 == 0 { 1.0 } else { -1.0 }) / divisor as f64
}

// (-1)^k / (2k + first)!, k from 0 to 8.
const fn over_factorials(first: u64) -> [f64; 9] {
    let mut c = [0.0; 9];
    let mut k = 0;
    while k < 9 {
        c[k] = signed(k, factorial(2 * k as u64 + first));
        k += 1;
    }
    c
}

// (-1)^k / (2k + 1), k from 0 to 22.
const fn over_odds() -> [f64; 23] {
    let mut c = [0.0; 23];
    let mut k = 0;
    while k < 23 {
        c[k] = signed(k, 2 * k as u64 + 1);
        k += 1;
    }
    c
}

const SIN: [f64; 9] = over_factorials(1);
const COS: [f64; 9] = over_factorials(0);
const ATAN: [f64; 23] = over_odds();

// From the highest coefficient down: one product and one sum a step.
#[inline(always)]
fn horner<const N: usize>(c: &[f64; N], z: f64) -> f64 {
    let mut h = c[N - 1];
    let mut k = N - 1;
    while k > 0 {
        k -= 1;
        h = h * z + c[k];
    }
    h
}

#[inline(always)]
fn big_s(r: f64) -> f64 {
    r * horner(&SIN, r * r)
}

#[inline(always)]
fn big_c(r: f64) -> f64 {
    horner(&COS, r * r)
}

// n mod 4 and r.
#[inline(always)]
fn quarter_and_rest(x: f64) -> (i64, f64) {
    // adding 0 makes a zero +0
    let n = (x * 0.6366197723675814 - 0.5).ceil() + 0.0;
    let r = (x - n * 1.5707963267341256) - n * 6.077100506506192e-11;
    ((n as i64).rem_euclid(4), r)
}

#[inline(always)]
fn in_range(x: f64) -> bool {
    -64.0 <= x && x <= 64.0
}

#[inline(always)]
fn big_t(u: f64) -> f64 {
    u * horner(&ATAN, u * u)
}

#[inline(always)]
fn big_a(t: f64) -> f64 {
    if t <= 0.41421356 {
        big_t(t)
    } else {
        PI / 4.0 + big_t((t - 1.0) / (t + 1.0))
    }
}

#[inline(always)]
fn base(y: f64, x: f64) -> f64 {
    if y == 0.0 && x == 0.0 {
        0.0
    } else if y <= x {
        big_a(y / x)
    } else {
        PI / 2.0 - big_a(x / y)
    }
}

fn cube_root(a: f64) -> f64 {
    let mut y = 1.0;
    for _ in 0..6 {
        y = y - (y * y * y - a) / (3.0 * y * y);
    }
    y
}

impl Standins for f64 {
    // std's own: the machine's root is IEEE 754's.
    #[inline]
    fn std_sqrt(self) -> f64 {
        self.sqrt()
    }

    #[inline]
    fn std_sin(self) -> f64 {
        if !in_range(self) {
            return f64::NAN;
        }
        match quarter_and_rest(self) {
            (0, r) => big_s(r),
            (1, r) => big_c(r),
            (2, r) => -big_s(r),
            (_, r) => -big_c(r),
        }
    }

    #[inline]
    fn std_cos(self) -> f64 {
        if !in_range(self) {
            return f64::NAN;
        }
        match quarter_and_rest(self) {
            (0, r) => big_c(r),
            (1, r) => -big_s(r),
            (2, r) => -big_c(r),
            (_, r) => big_s(r),
        }
    }

    // The sign bits are read, those of zeros too.
    #[inline]
    fn std_atan2(self, x: f64) -> f64 {
        let base = base(self.abs(), x.abs());
        let turned = if x.is_sign_negative() { PI - base } else { base };
        if self.is_sign_negative() { -turned } else { turned }
    }

    #[inline]
    fn std_asin(self) -> f64 {
        self.std_atan2(((1.0 - self) * (1.0 + self)).std_sqrt())
    }

    #[inline]
    fn std_powf(self, e: f64) -> f64 {
        if e == 1.0 / 3.0 {
            cube_root(self)
        } else if e == 3.0 / 2.0 {
            self * self.std_sqrt()
        } else {
            panic!("document 01 has no stand-in for this power")
        }
    }

    #[inline]
    fn std_to_radians(self) -> f64 {
        self * (PI / 180.0)
    }

    #[inline]
    fn std_to_degrees(self) -> f64 {
        self * (180.0 / PI)
    }
}
