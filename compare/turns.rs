// Inputs about where request One of document 02 changes the answer: a remainder below zero whose sum with the maximum rounds to the maximum.
use crate::earth::Part;
use crate::feeds::{put, unit};
use crate::random::{CLASSES, Random, number, power_of_two, step};
use crate::remainders::{above, least, normal};
use crate::words::Inputs;
use reference::local::{NedFrame, NedVector};
use reference::{GeocentricPosition, GeodeticPosition, Length, NVector, Surface, Vec3};
use std::f64::consts::PI;

const MAXIMA: u64 = 11;
const ANGLES: u64 = 7;

// An angle and a maximum of either sign. Each sort of the one meets each of the other.
pub fn pair(r: &mut Random, turn: u64) -> [f64; 2] {
    let max = match turn % MAXIMA {
        0 => {
            let sort = r.below(MAXIMA);
            -maximum(r, sort)
        }
        sort => maximum(r, sort),
    };
    [angle(r, turn, max), max]
}

fn maximum(r: &mut Random, sort: u64) -> f64 {
    match sort {
        1 => 2.0 * PI,
        2 => r.pick(&[PI, PI / 2.0, 360.0, 180.0, 400.0, 6400.0]),
        3 => normal(r),
        4 => step(f64::MAX, -(r.below(4) as i64)),
        5 => f64::INFINITY,
        // below a power of two the doubles lie closer
        6 => {
            let power = power_of_two(r.about(1022));
            r.beside(power)
        }
        // too small for any sum to be rounded, and the first that are not
        7 => least(r),
        8 => number(r, 2).abs(),
        9 => above(r, -1022, 4),
        _ => {
            let class = r.below(CLASSES);
            number(r, class).abs()
        }
    }
}

// An angle below zero: rounded away beside the maximum, at the tie, just beyond it, or just below a multiple.
pub fn angle(r: &mut Random, turn: u64, max: f64) -> f64 {
    let size = max.abs();
    if size == f64::INFINITY {
        let class = r.below(CLASSES);
        return -number(r, class).abs().min(f64::MAX);
    }
    // half the way down to the next double
    let half = ((size - step(size, -1)) / 2.0).max(step(0.0, 1));
    -match turn % ANGLES {
        0 => half * power_of_two(-(r.below(60) as i64)) * r.between(0.5, 1.0),
        1 => step(half, r.about(3)),
        2 => number(r, 2).abs(),
        3 => least(r),
        4 => half * power_of_two(-(r.below(1000) as i64)),
        5 => half * r.between(1.0, 4.0),
        _ => step((1 + r.below(1000)) as f64 * size, r.about(1)),
    }
}

// What an operation takes, with a vector or a target that lies about as far west of north.
pub fn westward(r: &mut Random, turn: u64, parts: &[Part], inputs: &mut [u64]) {
    match *parts {
        [Part::Orientation, Part::Vector] => vector(r, turn, inputs),
        [Part::Figure, from, ..] => look(r, turn, from, inputs),
        _ => unreachable!("no operation of these parts asks for a bearing"),
    }
}

// East of a vector that goes so far north.
fn easting(r: &mut Random, turn: u64, north: f64) -> f64 {
    let ratio = angle(r, turn, 2.0 * PI);
    match turn % ANGLES {
        // the least ones as they are, since with a factor they would be zero
        2 | 3 => ratio,
        _ => ratio * north,
    }
}

fn vector(r: &mut Random, turn: u64, inputs: &mut [u64]) {
    let north = match r.below(5) {
        0 => 1.0,
        1 => power_of_two(r.about(26)),
        2 => r.beside(1e8),
        3 => r.between(1.0, 1000.0),
        // 1e-300 to 1e8
        _ => above(r, -996, 1022),
    };
    let east = easting(r, turn, north);
    let class = r.below(CLASSES);
    let up = number(r, class);
    let enu = inputs[0] == 0;
    put(&mut inputs[1..], &if enu { [east, north, up] } else { [north, east, up] });
}

// From a pole, or a place where east is along an axis, as far west as is said; from anywhere else far to the north, where the last digits say how far west.
fn look(r: &mut Random, turn: u64, from: Part, inputs: &mut [u64]) {
    let earth = Inputs(inputs).e();
    let mut up = [0; 3].map(|_| r.between(-1.0, 1.0));
    let place = r.below(4);
    match place {
        0 => (up[0], up[1]) = (0.0, 0.0),
        1 => up[0] = 0.0,
        2 => up[1] = 0.0,
        _ => (),
    }
    let [x, y, z] = unit(up);
    let origin = GeodeticPosition::new(NVector::new(Vec3::new(x, y, z)), Length::from_metres(r.between(-10000.0, 100000.0)));
    let north = if place < 3 { above(r, 0, 26) } else { above(r, 20, 6) };
    let east = easting(r, turn, north);
    let down = r.between(-1.0, 1.0) * north;
    let target = NedFrame::from_geodetic(origin, earth).destination_position(NedVector::from_metres(north, east, down));
    if from == Part::Geocentric {
        put(&mut inputs[4..], &coordinates(earth.geodetic_to_geocentric_position(origin)));
        put(&mut inputs[7..], &coordinates(target));
    } else {
        put(&mut inputs[4..], &fields(origin));
        put(&mut inputs[8..], &fields(earth.geocentric_to_geodetic_position(target)));
    }
}

fn coordinates(p: GeocentricPosition) -> [f64; 3] {
    [p.x, p.y, p.z].map(|part| part.metres)
}

fn fields(p: GeodeticPosition) -> [f64; 4] {
    [p.hp.0.x, p.hp.0.y, p.hp.0.z, p.height.metres]
}
