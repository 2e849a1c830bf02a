// Pairs for the remainder, by sorts: what a remainder in whole numbers could get wrong.
use crate::random::{CLASSES, Random, number, power_of_two, step};
use std::f64::consts::PI;

pub const SORTS: u64 = 15;

// A dividend and a divisor of the given sort, each of either sign.
pub fn pair(r: &mut Random, sort: u64) -> [f64; 2] {
    let [x, y] = match sort {
        0 => [f64::from_bits(r.bits()), f64::from_bits(r.bits())],
        // far apart: 1e270 and more by 1e-270 and less
        1 => [above(r, 900, 124), above(r, -1022, 123)],
        2 => [step(f64::MAX, -(r.below(4) as i64)), least(r)],
        3 => [subnormal(r), subnormal(r)],
        4 => [subnormal(r), normal(r)],
        5 => [normal(r), subnormal(r)],
        6 => multiple(r),
        // just below a multiple, or one, or just above
        7 => {
            let [x, y] = multiple(r);
            [step(x, r.about(1)), y]
        }
        8 => {
            let y = any(r);
            let k = (1 + r.below(1 << 20)) as f64;
            [step(k * y, r.about(1)), y]
        }
        9 => [power_of_two(r.about(1022)), power_of_two(r.about(1022))],
        10 => {
            let x = any(r);
            [x, x]
        }
        11 => {
            let x = any(r);
            [x, r.beside(x)]
        }
        // infinities, NaNs and zeros on either side
        12 => {
            let class = r.pick(&[1, 3]);
            let (x, y) = (number(r, class), any(r));
            if r.coin() { [x, y] } else { [y, x] }
        }
        // angles of every size, in radians and in degrees
        13 => [above(r, -37, 1060), r.pick(&[2.0 * PI, PI, 360.0, 180.0])],
        // exponents apart by about a multiple of eleven, since digits are shifted in by elevens; divisors at both ends of their digits
        _ => {
            let low = r.about(400);
            let apart = 11 * r.below(50) as i64 + r.about(1);
            let (y, other) = (power_of_two(low), above(r, low, 1));
            [above(r, low + apart, 1), r.pick(&[step(y, -1), y, step(y, 1), other])]
        }
    };
    [r.signed(x), r.signed(y)]
}

fn any(r: &mut Random) -> f64 {
    let class = r.below(CLASSES);
    number(r, class)
}

// Of one of so many exponents, from the given one on.
pub fn above(r: &mut Random, exponent: i64, count: u64) -> f64 {
    let power = power_of_two(exponent + r.below(count) as i64);
    step(power, (r.bits() >> 12) as i64)
}

pub fn normal(r: &mut Random) -> f64 {
    above(r, -1022, 2045)
}

fn subnormal(r: &mut Random) -> f64 {
    number(r, 2)
}

pub fn least(r: &mut Random) -> f64 {
    f64::from_bits(1 + r.below(8))
}

// A divisor of up to 26 digits and an exact multiple of it.
fn multiple(r: &mut Random) -> [f64; 2] {
    let y = (1 + (r.bits() >> 38 >> r.below(26))) as f64 * power_of_two(r.about(900));
    let k = (1 + (r.bits() >> 38 >> r.below(26))) as f64;
    [k * y, y]
}
