// Times the library's frames beside the Rust, both through calls that cannot be inlined, on the same inputs in one run.
#[allow(dead_code)]
mod random;
mod timing;

use random::Random;
use reference::ellipsoidal::Ellipsoid;
use reference::local::{EnuFrame, EnuVector, LocalFrame, NedVector};
use reference::{GeocentricPosition, GeodeticPosition, Length, Mat33, NVector, Surface, Vec3};
use std::cell::Cell;
use std::hint::black_box;
use std::marker::PhantomData;
use timing::best;

// An ellipsoid's four fields, a position, and where the answer goes.
type Geodetic<const N: usize> = unsafe extern "C" fn(f64, f64, f64, f64, f64, f64, f64, f64, &mut [f64; N]);
type Geocentric = unsafe extern "C" fn(f64, f64, f64, f64, f64, f64, f64, &mut [f64; 4]);
// A frame by its entries, and a position.
type Target = unsafe extern "C" fn(&[f64; 21], f64, f64, f64, &mut [f64; 3]);
type Measure = unsafe extern "C" fn(f64, f64, f64) -> f64;
type One = unsafe extern "C" fn(f64) -> f64;

extern "C" {
    fn numbers_sqrt(x: f64) -> f64;
    fn frames_to_geocentric(a: f64, b: f64, e: f64, f: f64, x: f64, y: f64, z: f64, h: f64, out: &mut [f64; 3]);
    fn frames_to_geodetic(a: f64, b: f64, e: f64, f: f64, x: f64, y: f64, z: f64, out: &mut [f64; 4]);
    fn frames_enu(a: f64, b: f64, e: f64, f: f64, x: f64, y: f64, z: f64, h: f64, out: &mut [f64; 21]);
    fn frames_vector_to(f: &[f64; 21], x: f64, y: f64, z: f64, out: &mut [f64; 3]);
    fn frames_bearing(x: f64, y: f64, z: f64) -> f64;
    fn frames_elevation(x: f64, y: f64, z: f64) -> f64;
}

#[inline(never)]
extern "C" fn rust_sqrt(x: f64) -> f64 {
    x.sqrt()
}

fn ellipsoid(a: f64, b: f64, e: f64, f: f64) -> Ellipsoid {
    Ellipsoid { equatorial_radius: Length { metres: a }, polar_radius: Length { metres: b }, eccentricity: e, flattening: f }
}

fn geodetic(x: f64, y: f64, z: f64, h: f64) -> GeodeticPosition {
    GeodeticPosition { hp: NVector(Vec3 { x, y, z }), height: Length { metres: h } }
}

#[inline(never)]
extern "C" fn rust_to_geocentric(a: f64, b: f64, e: f64, f: f64, x: f64, y: f64, z: f64, h: f64, out: &mut [f64; 3]) {
    let p = ellipsoid(a, b, e, f).geodetic_to_geocentric_position(geodetic(x, y, z, h));
    *out = [p.x.metres, p.y.metres, p.z.metres];
}

#[inline(never)]
extern "C" fn rust_to_geodetic(a: f64, b: f64, e: f64, f: f64, x: f64, y: f64, z: f64, out: &mut [f64; 4]) {
    let p = ellipsoid(a, b, e, f).geocentric_to_geodetic_position(GeocentricPosition::from_metres(x, y, z));
    *out = [p.hp.0.x, p.hp.0.y, p.hp.0.z, p.height.metres];
}

#[inline(never)]
extern "C" fn rust_enu(a: f64, b: f64, e: f64, f: f64, x: f64, y: f64, z: f64, h: f64, out: &mut [f64; 21]) {
    let f = EnuFrame::from_geodetic(geodetic(x, y, z, h), ellipsoid(a, b, e, f));
    let rows = [f.origin, f.dir_rm.r0, f.dir_rm.r1, f.dir_rm.r2, f.inv_rm.r0, f.inv_rm.r1, f.inv_rm.r2];
    for (to, v) in out.chunks_mut(3).zip(rows) {
        to.copy_from_slice(&[v.x, v.y, v.z]);
    }
}

#[inline(never)]
extern "C" fn rust_vector_to(f: &[f64; 21], x: f64, y: f64, z: f64, out: &mut [f64; 3]) {
    let v = |at: usize| Vec3 { x: f[at], y: f[at + 1], z: f[at + 2] };
    let m = |at: usize| Mat33 { r0: v(at), r1: v(at + 3), r2: v(at + 6) };
    let frame: EnuFrame = LocalFrame { origin: v(0), dir_rm: m(3), inv_rm: m(12), _o: PhantomData };
    let d = frame.local_vector_to(GeocentricPosition::from_metres(x, y, z));
    *out = [d.x.metres, d.y.metres, d.z.metres];
}

#[inline(never)]
extern "C" fn rust_bearing(x: f64, y: f64, z: f64) -> f64 {
    NedVector::from_metres(x, y, z).bearing().radians
}

#[inline(never)]
extern "C" fn rust_elevation(x: f64, y: f64, z: f64) -> f64 {
    EnuVector::from_metres(x, y, z).elevation().radians
}

const INPUTS: usize = 100_000;
const ROUNDS: usize = 40;

// Bits of all the numbers of an answer.
fn bits(xs: &[f64]) -> u64 {
    xs.iter().fold(0, |all, x| all.rotate_left(7) ^ x.to_bits())
}

// What a root of the library costs more than the machine's, in nanoseconds: in a row of calls that do not wait for one another, and in a chain.
struct Root {
    alone: f64,
    chained: f64,
}

impl Root {
    // A line of the table. The roots of a call are those of its definition.
    fn row(&self, name: &str, roots: u64, (rust, rattle): (f64, f64)) {
        let [low, high] = [self.alone, self.chained].map(|ns| roots as f64 * ns);
        let [most, least] = [low, high].map(|ns| (rattle - ns) / rust);
        println!(
            "{name:<26} {rust:>8.2} {rattle:>9.2} {:>6.2} {roots:>6} {low:>8.2} to {high:>6.2} {most:>8.2} to {least:>5.2}",
            rattle / rust
        );
    }
}

fn by_geodetic<const N: usize>(name: &str, ps: &[[f64; 4]], rust: Geodetic<N>, rattle: Geodetic<N>) -> (f64, f64) {
    let Ellipsoid { equatorial_radius: a, polar_radius: b, eccentricity: e, flattening: f } = Ellipsoid::WGS84;
    let call = |g: Geodetic<N>, i: usize| {
        let mut out = [0.0; N];
        let [x, y, z, h] = ps[i];
        unsafe { g(a.metres, b.metres, e, f, x, y, z, h, &mut out) };
        bits(&out)
    };
    let (rust, rattle) = (black_box(rust), black_box(rattle));
    best(name, ps.len(), ROUNDS, |i| call(rust, i), |i| call(rattle, i))
}

fn by_geocentric(name: &str, ps: &[[f64; 3]], rust: Geocentric, rattle: Geocentric) -> (f64, f64) {
    let Ellipsoid { equatorial_radius: a, polar_radius: b, eccentricity: e, flattening: f } = Ellipsoid::WGS84;
    let call = |g: Geocentric, i: usize| {
        let mut out = [0.0; 4];
        let [x, y, z] = ps[i];
        unsafe { g(a.metres, b.metres, e, f, x, y, z, &mut out) };
        bits(&out)
    };
    let (rust, rattle) = (black_box(rust), black_box(rattle));
    best(name, ps.len(), ROUNDS, |i| call(rust, i), |i| call(rattle, i))
}

fn by_target(name: &str, f: &[f64; 21], ps: &[[f64; 3]], rust: Target, rattle: Target) -> (f64, f64) {
    let call = |g: Target, i: usize| {
        let mut out = [0.0; 3];
        let [x, y, z] = ps[i];
        unsafe { g(f, x, y, z, &mut out) };
        bits(&out)
    };
    let (rust, rattle) = (black_box(rust), black_box(rattle));
    best(name, ps.len(), ROUNDS, |i| call(rust, i), |i| call(rattle, i))
}

fn by_vector(name: &str, vs: &[[f64; 3]], rust: Measure, rattle: Measure) -> (f64, f64) {
    let call = |g: Measure, i: usize| unsafe { g(vs[i][0], vs[i][1], vs[i][2]) }.to_bits();
    let (rust, rattle) = (black_box(rust), black_box(rattle));
    best(name, vs.len(), ROUNDS, |i| call(rust, i), |i| call(rattle, i))
}

fn root(xs: &[f64]) -> Root {
    let (rust, rattle) = (black_box(rust_sqrt as One), black_box(numbers_sqrt as One));
    let call = |g: One, i: usize| unsafe { g(xs[i]) }.to_bits();
    let alone = best("sqrt", xs.len(), ROUNDS, |i| call(rust, i), |i| call(rattle, i));
    // each call waits for the one before, whose answer adds nothing
    let last = Cell::new(0.0);
    let next = |g: One, i: usize| {
        last.set(unsafe { g(xs[i] + 0.0 * last.get()) });
        last.get().to_bits()
    };
    let chained = best("sqrt", xs.len(), ROUNDS, |i| next(rust, i), |i| next(rattle, i));
    for (how, (machine, library)) in [("not waiting", alone), ("in a chain", chained)] {
        println!("one root, {how}: the machine's {machine:.2} ns, the library's {library:.2} ns, {:.2} more", library - machine);
    }
    Root { alone: alone.1 - alone.0, chained: chained.1 - chained.0 }
}

fn main() {
    let mut r = Random(20261115);
    let geodetic: Vec<[f64; 4]> = (0..INPUTS).map(|_| position(&mut r)).collect();
    let geocentric: Vec<[f64; 3]> = geodetic.iter().map(|&[x, y, z, h]| [x, y, z].map(|n| n * (6371000.0 + h))).collect();
    let vectors: Vec<[f64; 3]> = (0..INPUTS).map(|_| [0; 3].map(|_| r.between(-1e4, 1e4))).collect();
    let squares: Vec<f64> = vectors.iter().map(|v| v[0] * v[0] + v[1] * v[1] + v[2] * v[2]).collect();
    let mut frame = [0.0; 21];
    let [x, y, z, h] = geodetic[0];
    let l = Ellipsoid::WGS84;
    rust_enu(l.equatorial_radius.metres, l.polar_radius.metres, l.eccentricity, l.flattening, x, y, z, h, &mut frame);
    println!("{INPUTS} inputs, the best of {ROUNDS} rounds of each side, nanoseconds a call");
    let root = root(&squares);
    println!("{:<26} {:>8} {:>9} {:>6} {:>6} {:>18} {:>17}", "", "Rust", "Rattle", "ratio", "roots", "roots cost", "ratio without");
    root.row("geodetic_to_geocentric", 1, by_geodetic("to geocentric", &geodetic, rust_to_geocentric, frames_to_geocentric));
    root.row("geocentric_to_geodetic", 6, by_geocentric("to geodetic", &geocentric, rust_to_geodetic, frames_to_geodetic));
    root.row("enu from geodetic", 2, by_geodetic("enu", &geodetic, rust_enu, frames_enu));
    root.row("local_vector_to", 0, by_target("vector to", &frame, &geocentric, rust_vector_to, frames_vector_to));
    root.row("bearing", 0, by_vector("bearing", &vectors, rust_bearing, frames_bearing));
    root.row("elevation", 2, by_vector("elevation", &vectors, rust_elevation, frames_elevation));
}

// Somewhere on the Earth: the n-vector and the height.
fn position(r: &mut Random) -> [f64; 4] {
    let lat = r.between(-1.5, 1.5);
    let lon = r.between(-3.1, 3.1);
    [lat.cos() * lon.cos(), lat.cos() * lon.sin(), lat.sin(), r.between(-1000.0, 10000.0)]
}
