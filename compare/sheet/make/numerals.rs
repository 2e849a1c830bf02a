// Numbers as a sheet writes them, and readings of every sort of bits.
use crate::random::{CLASSES, Random, number, power_of_two};
use crate::sheet::READINGS;

// What a number is for.
#[derive(Clone, Copy, PartialEq, Eq)]
pub enum Role {
    Latitude,
    Longitude,
    Turn,
    Height,
    Offset,
    Coordinate,
    Factor,
}

impl Role {
    // Whether it ends as an angle.
    pub fn is_angle(self) -> bool {
        matches!(self, Role::Latitude | Role::Longitude | Role::Turn)
    }
}

// Limits and their neighbours, zeros of both signs, and other places where something turns.
const DEGREES: [&str; 28] = [
    "0", "-0", "-0.0", "90", "-90", "89.999999", "-89.999999", "90.000001", "-90.000001", "180", "-180", "179.999999", "270", "360", "-360", "45", "0.000001",
    "-0.000001", "3666", "-3666", "3667", "-3667", "3666.929888", "3666.929889", "-3666.929888", "-3666.929889", "100000000", "000000090.000000",
];
const METRES: [&str; 26] = [
    "0", "-0", "-000", "-0.000000", "0.000001", "-0.000001", "1", "-1", "2", "100000000", "-100000000", "100000000.000001", "-100000000.000001",
    "99999999.999999", "-99999999.999999", "100000000.000000", "50000000", "-50000000", "50000000.000001", "70710678.118655", "57735026.918963",
    "999999999.999999", "-999999999.999999", "93621863", "-6356752.314245", "6378137",
];
const FACTORS: [&str; 16] = [
    "0", "-0", "1", "-1", "2", "-2", "0.5", "0.000001", "100000000", "-100000000", "100000000.000001", "99999999.999999", "10", "1000", "-0.000001", "001.5",
];

pub fn turning(r: &mut Random, role: Role) -> &'static str {
    match role {
        Role::Factor => r.pick(&FACTORS),
        _ if role.is_angle() => r.pick(&DEGREES),
        _ => r.pick(&METRES),
    }
}

// A size that most sheets run to their end with.
pub fn ordinary(r: &mut Random, role: Role) -> f64 {
    match role {
        Role::Latitude => r.between(-89.9, 89.9),
        Role::Longitude => r.between(-180.0, 180.0),
        Role::Turn => r.between(-360.0, 360.0),
        Role::Height => r.between(-500.0, 9000.0),
        Role::Offset => {
            let most = r.pick(&[1.0, 100.0, 10000.0]);
            r.between(-most, most)
        }
        Role::Coordinate => r.between(-7e6, 7e6),
        Role::Factor => r.between(-3.0, 3.0),
    }
}

// With up to six digits behind the point.
pub fn text(r: &mut Random, x: f64) -> String {
    let digits = r.pick(&[0, 0, 1, 2, 3, 6]);
    format!("{x:.digits$}")
}

// A NUM of the given count of bytes, 1 to 16: one digit that counts, and zeros.
pub fn long(r: &mut Random, bytes: usize) -> String {
    let digit = r.below(10);
    match bytes {
        0..=9 => format!("{digit:0bytes$}"),
        10 => format!("{digit:08}.0"),
        _ => format!("{digit:09}.{:0width$}", 0, width = bytes - 10),
    }
}

// The first half of the readings as degrees, the second as metres.
pub fn readings(r: &mut Random) -> [u64; READINGS] {
    let mut bits = [0; READINGS];
    for (k, reading) in bits.iter_mut().enumerate() {
        let x = match k {
            0..=3 => ordinary(r, Role::Latitude),
            4..=7 => ordinary(r, Role::Turn),
            8..=13 => ordinary(r, Role::Offset),
            _ => ordinary(r, Role::Height),
        };
        *reading = x.to_bits();
    }
    bits
}

const EDGES: [f64; 12] = [
    1e8, 1e8, 1e8, 5e7, 3666.929888837269, 3666.929888837269, 90.0, 180.0, 360.0, f64::EPSILON, 2.0 * f64::EPSILON, 57735026.91896258,
];

// A reading of any bits.
pub fn wild(r: &mut Random) -> u64 {
    let x = match r.below(6) {
        0 => r.pick(&[0.0, -0.0]),
        1 | 2 => {
            let edge = r.pick(&EDGES);
            let edge = r.signed(edge);
            r.beside(edge)
        }
        3 => {
            let tiny = power_of_two(-(r.below(1000) as i64));
            r.signed(tiny)
        }
        4 => return r.bits(),
        _ => {
            let class = r.below(CLASSES);
            number(r, class)
        }
    };
    x.to_bits()
}

pub fn direction(r: &mut Random) -> [f64; 3] {
    let (latitude, longitude) = (r.between(-1.55, 1.55), r.between(-3.14, 3.14));
    [latitude.cos() * longitude.cos(), latitude.cos() * longitude.sin(), latitude.sin()]
}

// Two positions where p + q is 0.25 or one of the doubles beside it: anywhere, and on an axis.
pub fn centre(r: &mut Random, radius: f64, squash: f64, readings: &mut [u64; READINGS]) {
    let half = [radius / 2.0, radius / 2.0, radius / 2.0 / squash.sqrt()];
    let n = direction(r);
    let axis = r.below(3) as usize;
    for k in 0..3 {
        readings[8 + k] = r.beside(n[k] * half[k]).to_bits();
        readings[11 + k] = if k == axis { r.beside(half[k]).to_bits() } else { 0 };
    }
}
