// Inputs for the operations on frames, part by part: earth-like ones half the time, then those at which something turns, then any.
use crate::feeds::{Feeder, axis, put, unit};
use crate::random::{Random, number, power_of_two};
use reference::Length;
use reference::ellipsoidal::Ellipsoid;
use std::f64::consts::{FRAC_PI_2, PI};

#[derive(Clone, Copy, PartialEq)]
pub enum Part {
    // a number from 0 to 3; Level has no 2, the body's
    Orientation,
    Level,
    // an ellipsoid by its four fields, and the two numbers of `Ellipsoid::new`
    Figure,
    Radius,
    Inverse,
    // one number: an angle, the same or a latitude, a length, a factor
    Turn,
    Latitude,
    Metres,
    Factor,
    // latitude and longitude
    Horizontal,
    // three numbers, three numbers, four
    Vector,
    Geocentric,
    Nvector,
    Geodetic,
    // nine, and twenty-one: origin, direction and inverse matrix
    Matrix,
    Frame,
}

impl Part {
    pub const fn words(self) -> usize {
        match self {
            Part::Horizontal => 2,
            Part::Vector | Part::Geocentric | Part::Nvector => 3,
            Part::Figure | Part::Geodetic => 4,
            Part::Matrix => 9,
            Part::Frame => 21,
            _ => 1,
        }
    }
}

// How far from the ordinary the inputs of a turn lie.
#[derive(Clone, Copy, PartialEq)]
enum Mood {
    Earth,
    Edge,
    Any,
}

impl Feeder {
    pub fn parts(&mut self, parts: &[Part], inputs: &mut [u64]) {
        let mut at = 0;
        let mut radius = 6378137.0;
        for (k, &part) in parts.iter().enumerate() {
            let to = &mut inputs[at..at + part.words()];
            let mood = self.mood();
            self.part(part, mood, radius, to);
            if part == Part::Figure {
                radius = f64::from_bits(to[0]);
            }
            // a second part of the kind is at times as the one before it
            if k > 0 && parts[k - 1] == part && part.words() > 2 && self.random.below(3) == 0 {
                inputs.copy_within(at - part.words()..at, at);
                self.beside(&mut inputs[at..at + part.words()]);
            }
            at += part.words();
        }
    }

    fn mood(&mut self) -> Mood {
        match (self.turn % 8, self.random.below(4)) {
            (0..=3, _) => Mood::Earth,
            (4..=5, 0) | (6, 0..=2) => Mood::Edge,
            (4, 1) | (7, 0..=2) => Mood::Any,
            _ => Mood::Earth,
        }
    }

    // The same, the opposite, neighbours, or some metres away.
    fn beside(&mut self, words: &mut [u64]) {
        let r = &mut self.random;
        let how = r.below(5);
        for w in words {
            let x = f64::from_bits(*w);
            let y = match how {
                0 => x,
                1 => -x,
                2 => r.beside(x),
                3 => x + r.between(-10.0, 10.0),
                _ => x * r.between(0.9, 1.1),
            };
            *w = y.to_bits();
        }
    }

    fn part(&mut self, part: Part, mood: Mood, radius: f64, to: &mut [u64]) {
        match part {
            Part::Orientation => to[0] = self.random.below(4),
            Part::Level => to[0] = self.random.pick(&[0, 1, 3]),
            _ if mood == Mood::Any => self.wild(to),
            Part::Frame => self.frame(mood, to),
            _ => {
                let r = &mut self.random;
                match part {
                    Part::Figure => put(to, &ellipsoid(r, mood)),
                    Part::Radius => put(to, &[semi_axis(r, mood)]),
                    Part::Inverse => put(to, &[inverse(r, mood)]),
                    Part::Turn => put(to, &[angle(r, mood)]),
                    Part::Latitude => put(to, &[if r.coin() { angle(r, mood) } else { lat_long(r, mood)[0] }]),
                    Part::Metres => put(to, &[length(r, mood)]),
                    Part::Factor => put(to, &[number(r, if mood == Mood::Earth { 10 } else { 4 })]),
                    Part::Horizontal => put(to, &lat_long(r, mood)),
                    Part::Vector => put(to, &vector(r, mood)),
                    Part::Geocentric => put(to, &geocentric(r, mood, radius)),
                    Part::Nvector => put(to, &nvector(r, mood)),
                    Part::Geodetic => {
                        put(to, &nvector(r, mood));
                        put(&mut to[3..], &[length(r, mood)]);
                    }
                    _ => put(to, &matrix(r, mood)),
                }
            }
        }
    }

    // All of random bits, or each of any class.
    fn wild(&mut self, to: &mut [u64]) {
        let bits = self.random.below(3) == 0;
        for w in to {
            *w = if bits { self.random.bits() } else { self.any().to_bits() };
        }
    }

    // The inverse is the transpose, or at an edge any other.
    fn frame(&mut self, mood: Mood, to: &mut [u64]) {
        let r = &mut self.random;
        put(to, &geocentric(r, mood, 6378137.0));
        let m = matrix(r, mood);
        put(&mut to[3..], &m);
        let other = mood == Mood::Edge && r.coin();
        let i = if other { matrix(r, mood) } else { [0, 3, 6, 1, 4, 7, 2, 5, 8].map(|k| m[k]) };
        put(&mut to[12..], &i);
    }
}

fn semi_axis(r: &mut Random, mood: Mood) -> f64 {
    match mood {
        Mood::Earth => r.between(1e6, 1e7),
        _ => {
            let edge = r.pick(&[1e6, 1e7, 6378137.0, 6400000.0]);
            r.beside(edge)
        }
    }
}

fn inverse(r: &mut Random, mood: Mood) -> f64 {
    match mood {
        Mood::Earth => r.between(100.0, 1000.0),
        _ => {
            let edge = r.pick(&[100.0, 1000.0, 298.257223563, 128.0, 1.0, 2.0]);
            r.beside(edge)
        }
    }
}

fn ellipsoid(r: &mut Random, mood: Mood) -> [f64; 4] {
    let l = match r.below(3) {
        0 => Ellipsoid::WGS84,
        1 => Ellipsoid::new(Length::from_metres(6400000.0), 128.0),
        _ => Ellipsoid::new(Length::from_metres(semi_axis(r, mood)), inverse(r, mood)),
    };
    [l.equatorial_radius.metres, l.polar_radius.metres, l.eccentricity, l.flattening]
}

// A turn, or quarter turns and the limits with their neighbours.
fn angle(r: &mut Random, mood: Mood) -> f64 {
    match (mood, r.below(4)) {
        (Mood::Earth, _) => r.between(-PI, PI),
        (_, 0) => {
            let limit = r.signed(64.0);
            r.beside(limit)
        }
        (_, 1) => r.signed(0.0),
        _ => number(r, 5),
    }
}

fn length(r: &mut Random, mood: Mood) -> f64 {
    match (mood, r.below(4)) {
        (Mood::Earth, _) => r.between(-10000.0, 100000.0),
        (_, 0) => r.signed(0.0),
        (_, 1) => limit(r),
        _ => number(r, 8),
    }
}

// 100,000,000 and its neighbours.
fn limit(r: &mut Random) -> f64 {
    let x = r.signed(1e8);
    r.beside(x)
}

// Anywhere, or a pole, the antimeridian, the equator, with their neighbours.
fn lat_long(r: &mut Random, mood: Mood) -> [f64; 2] {
    let any = [r.between(-FRAC_PI_2, FRAC_PI_2), r.between(-PI, PI)];
    if mood == Mood::Earth {
        return any;
    }
    let lat = r.pick(&[FRAC_PI_2, -FRAC_PI_2, 0.0, -0.0, any[0]]);
    let lon = r.pick(&[PI, -PI, 0.0, -0.0, FRAC_PI_2, any[1]]);
    let (lat, lon) = if r.coin() { (lat, lon) } else { (r.beside(lat), r.beside(lon)) };
    [lat, lon]
}

fn nvector(r: &mut Random, mood: Mood) -> [f64; 3] {
    let [lat, lon] = lat_long(r, mood);
    let v = [lat.cos() * lon.cos(), lat.cos() * lon.sin(), lat.sin()];
    match (mood, r.below(4)) {
        (Mood::Earth, _) => v,
        (_, 0) => axis(r),
        // beside a pole
        (_, 1) => [number(r, 2), r.signed(1e-9), r.signed(1.0)],
        (_, 2) => v.map(|x| r.beside(x)),
        _ => v,
    }
}

fn geocentric(r: &mut Random, mood: Mood, a: f64) -> [f64; 3] {
    let n = nvector(r, mood);
    let h = r.between(-10000.0, 100000.0);
    let on = [n[0] * (a + h), n[1] * (a + h), n[2] * (a * 0.9966 + h)];
    match (mood, r.below(6)) {
        (Mood::Earth, _) => on,
        // where p + q is about 0.25
        (_, 0) => n.map(|x| 0.5 * a * x).map(|x| r.beside(x)),
        // on an axis, half a radius out or its neighbour
        (_, 1) => axis(r).map(|x| x * 0.5 * a).map(|x| if x == 0.0 { x } else { r.beside(x) }),
        // from half a radius to the centre, and about where p + q is the fourth power of the eccentricity
        (_, 2) => {
            let k = if r.coin() { r.unit() } else { 0.0067 * r.between(0.5, 1.5) };
            n.map(|x| 0.5 * k * a * x)
        }
        (_, 3) => [0; 3].map(|_| if r.coin() { limit(r) } else { r.between(-1e8, 1e8) }),
        // on the axis of rotation, or nearly, and huge ones
        (_, 4) => [number(r, 2), r.signed(0.0), r.signed(a)],
        _ => {
            let scale = power_of_two(r.about(500));
            n.map(|x| x * scale)
        }
    }
}

// Metres to a thousand kilometres, or lengths about 2^-52, axes, zeros and limits.
fn vector(r: &mut Random, mood: Mood) -> [f64; 3] {
    let scale = power_of_two(r.about(20));
    let v = [0; 3].map(|_| r.between(-1.0, 1.0) * scale);
    match (mood, r.below(6)) {
        (Mood::Earth, _) => v,
        (_, 0) => unit(v).map(|x| x * f64::EPSILON),
        (_, 1) => axis(r).map(|x| if x == 0.0 { x } else { r.beside(x * f64::EPSILON) }),
        (_, 2) => axis(r).map(|x| x * scale),
        (_, 3) => [0; 3].map(|_| if r.coin() { limit(r) } else { r.signed(0.0) }),
        // a bearing just below a whole turn
        (_, 4) => [v[0].abs(), -number(r, 2).abs(), v[2]],
        _ => [0; 3].map(|_| number(r, 4)),
    }
}

// A rotation, or axes in some order and neighbours of a rotation.
fn matrix(r: &mut Random, mood: Mood) -> [f64; 9] {
    let [a, b, c] = [0; 3].map(|_| angle(r, mood));
    let m = rotation(a, b, c);
    match (mood, r.below(3)) {
        (Mood::Edge, 0) => [axis(r), axis(r), axis(r)].concat().try_into().unwrap(),
        (Mood::Edge, 1) => m.map(|x| r.beside(x)),
        _ => m,
    }
}

// About z, then the new y, then the newest x.
fn rotation(z: f64, y: f64, x: f64) -> [f64; 9] {
    let ((sz, cz), (sy, cy), (sx, cx)) = (z.sin_cos(), y.sin_cos(), x.sin_cos());
    [
        [cz * cy, cz * sy * sx - sz * cx, sz * sx + cz * sy * cx],
        [sz * cy, cz * cx + sz * sy * sx, sz * sy * cx - cz * sx],
        [-sy, cy * sx, cy * cx],
    ]
    .concat()
    .try_into()
    .unwrap()
}
