// Expressions whose value lies at a limit, one part of it alone, or where a sign of zero or a tiny part decides.
use super::Earth;
use super::expressions::{A, D, F, G, Kind, L, V};
use super::north;
use crate::random::Random;

pub const VECTORS: [&str; 4] = ["venu", "vned", "vbody", "vwan"];

// About x, to six digits behind the point.
pub fn near(r: &mut Random, x: f64) -> String {
    let off = r.pick(&[0.0, 0.0, 1e-6, 1e-6, 2e-6, 1e-5, 0.001, 1.0]);
    let off = r.signed(off);
    format!("{:.6}", x + off)
}

pub fn sign(r: &mut Random) -> &'static str {
    r.pick(&["", "-"])
}

// A vector with the number in one place and small ones or zeros in the others.
fn vector(r: &mut Random, word: &str, place: usize, number: &str) -> String {
    let parts = [0, 1, 2].map(|k| if k == place { number.to_string() } else { r.pick(&["0", "-0", "1", "0.5"]).to_string() });
    format!("({word} (m {}) (m {}) (m {}))", parts[0], parts[1], parts[2])
}

// Latitude and longitude of an end of an axis, and how far out the ellipsoid ends there.
fn axis(r: &mut Random, earth: &Earth) -> (&'static str, f64) {
    let (a, b) = (earth.ellipsoid.equatorial_radius.metres, earth.ellipsoid.polar_radius.metres);
    match r.below(6) {
        0 => ("(deg 0) (deg 0)", a),
        1 => ("(deg 0) (deg 180)", a),
        2 => ("(deg 0) (deg 90)", a),
        3 => ("(deg 0) (deg -90)", a),
        4 => ("(deg 90) (deg 7)", b),
        _ => ("(deg -90) (deg 7)", b),
    }
}

// One coordinate about the limit, and no other.
fn far(r: &mut Random, earth: &Earth) -> String {
    let (place, out) = axis(r, earth);
    format!("(lla {place} (m {}))", near(r, 1e8 - out))
}

pub fn expression(r: &mut Random, earth: &Earth) -> (Kind, String) {
    match r.below(11) {
        0 => (G, format!("(togeo {})", far(r, earth))),
        1 => {
            let p = far(r, earth);
            frame(r, &p, "(lla (deg 1) (deg 1) (m 1))")
        }
        2 => (D, format!("(tolla {})", aloft(r, earth))),
        3 => from_frame(r, earth),
        4 | 5 => combined(r),
        6 => (L, ranged(r)),
        7 => measured(r),
        8 => (G, zeros(r)),
        _ => north::expression(r),
    }
}

// What meets refusal 8, of the positions that `numerals::centre` sets.
pub fn centre(r: &mut Random) -> (Kind, String) {
    let p = r.pick(&["(geo (m r8) (m r9) (m r10))", "(geo (m r8) (m r9) (m r10))", "(geo (m r11) (m r12) (m r13))"]);
    let other = r.pick(&["(geo (m 1) (m 1) (m 1))", "(geo (m r14) (m r8) (m r15))"]);
    if r.below(6) == 0 { (D, format!("(tolla {p})")) } else { frame(r, p, other) }
}

fn frame(r: &mut Random, p: &str, other: &str) -> (Kind, String) {
    match r.below(5) {
        0 => (F, format!("(enu {p})")),
        1 => (F + 1, format!("(ned {p})")),
        2 => (F + 2, format!("(body (deg r0) (deg 1) (deg r1) {p})")),
        3 => (F + 2, format!("(look {p} {other} (deg 1))")),
        _ => (F + 3, format!("(wan (deg r2) {p})")),
    }
}

// So high that the height is about the limit, no coordinate being there.
fn aloft(r: &mut Random, earth: &Earth) -> String {
    let (u, v) = (r.between(0.4, 0.6), r.between(-0.6, 0.6));
    let n = [u, v, (1.0 - u * u - v * v).sqrt()];
    let ground = earth.radius() * (1.0 - (1.0 - earth.squash().sqrt()) * n[2] * n[2]);
    let out = 1e8 + ground + r.between(-500.0, 500.0);
    let [x, y, z] = n.map(|n| format!("{:.6}", n * out));
    format!("(geo (m {x}) (m {y}) (m {z}))")
}

// From the end of an axis straight up or down, or from the pole to far beyond the other one.
fn from_frame(r: &mut Random, earth: &Earth) -> (Kind, String) {
    let (place, out) = axis(r, earth);
    let up = near(r, 1e8 - out);
    let (frame, vector) = match r.below(3) {
        0 => (format!("(enu (lla {place} (m 0)))"), format!("(venu (m 0) (m 0) (m {up}))")),
        1 => (format!("(ned (lla {place} (m 0)))"), format!("(vned (m -0) (m 0) (m -{up}))")),
        _ => (format!("(wan (deg 0) (lla {place} (m 0)))"), format!("(vwan (m 0) (m 0) (m -{up}))")),
    };
    match r.below(3) {
        0 => (F + 2, format!("(move {frame} {vector} (deg 0) (deg r1) (deg 0))")),
        1 => {
            let (o, word) = r.pick(&[(0, "enu"), (1, "ned")]);
            let z = near(r, earth.ellipsoid.polar_radius.metres - 1e8);
            (V + o, format!("(to ({word} (lla (deg 90) (deg 0) (m 0))) (geo (m 0) (m -0) (m {z})))"))
        }
        _ => (G, format!("(at {frame} {vector})")),
    }
}

fn combined(r: &mut Random) -> (Kind, String) {
    let o = r.below(4) as Kind;
    let (word, place, minus) = (VECTORS[o as usize], r.below(3) as usize, sign(r));
    let half = near(r, 5e7);
    let one = vector(r, word, place, &format!("{minus}{half}"));
    let text = match r.below(4) {
        0 => format!("(add {one} {})", vector(r, word, place, &format!("{minus}50000000"))),
        1 if minus == "" => format!("(sub {one} {})", vector(r, word, place, "-50000000")),
        1 => format!("(sub {one} {})", vector(r, word, place, "50000000")),
        2 => format!("(scale {one} {}2)", sign(r)),
        _ => {
            let factor = near(r, 1e8 / 3.0);
            format!("(scale {} {factor})", vector(r, word, place, "3"))
        }
    };
    (V + o, text)
}

fn ranged(r: &mut Random) -> String {
    let word = r.pick(&VECTORS);
    let (x, y) = (near(r, 99999999.999999), near(r, 1.0));
    let place = r.below(3) as usize;
    if r.coin() { format!("(range {})", vector(r, word, place, &x)) } else { format!("(range ({word} (m {x}) (m {y}) (m 1)))") }
}

// Zeros of both signs, readings, and angles about their limit.
fn measured(r: &mut Random) -> (Kind, String) {
    if r.below(4) == 0 {
        return (A, format!("(deg {}3666.92988{})", sign(r), r.pick(&["8", "9", "7"])));
    }
    let parts = [0; 3].map(|_| match r.below(6) {
        0 => "0".to_string(),
        1 => "-0".to_string(),
        2 => "1".to_string(),
        _ => format!("r{}", 8 + r.below(8)),
    });
    let word = r.pick(&["bearing", "bearing", "elev"]);
    (A, format!("({word} ({} (m {}) (m {}) (m {})))", r.pick(&VECTORS), parts[0], parts[1], parts[2]))
}

fn zeros(r: &mut Random) -> String {
    let mut parts = [0; 3].map(|_| r.pick(&["0", "-0", "-0.0", "0.000001", "-0.000001"]));
    parts[r.below(3) as usize] = r.pick(&["7000000", "-7000000", "100000000", "-100000000", "-0"]);
    format!("(geo (m {}) (m {}) (m {}))", parts[0], parts[1], parts[2])
}
