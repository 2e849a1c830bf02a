// An operation by its words, bits in and bits out, and the Rust's values from and to words.
use crate::feeds::Feed;
use reference::ellipsoidal::Ellipsoid;
use reference::local::{FrameOrientation, LocalFrame, LocalVector};
use reference::{Angle, GeocentricPosition, GeodeticPosition, LatLong, Length, Mat33, NVector, Vec3};
use std::marker::PhantomData;

// Room for every operation. An operation's words stand first, zeros after them.
pub const INPUTS: usize = 32;
pub const OUTPUTS: usize = 24;
const NAN: u64 = 0x7ff8_0000_0000_0000;

pub struct Operation {
    pub name: &'static str,
    pub inputs: usize,
    pub outputs: usize,
    pub feed: Feed,
    answer: fn(&Inputs, &mut Outputs),
}

// An operation of a table.
pub const fn op(name: &'static str, inputs: usize, outputs: usize, feed: Feed, answer: fn(&Inputs, &mut Outputs)) -> Operation {
    Operation { name, inputs, outputs, feed, answer }
}

impl Operation {
    // The Rust's answer.
    pub fn answer(&self, inputs: &[u64; INPUTS]) -> [u64; OUTPUTS] {
        let mut o = Outputs { bits: [0; OUTPUTS], count: 0 };
        (self.answer)(&Inputs(inputs), &mut o);
        assert_eq!(o.count, self.outputs, "{}", self.name);
        o.bits
    }
}

// Any NaN as one.
pub fn one_nan(bits: u64) -> u64 {
    if f64::from_bits(bits).is_nan() { NAN } else { bits }
}

pub struct Inputs<'a>(pub &'a [u64]);

impl Inputs<'_> {
    pub fn n(&self, at: usize) -> f64 {
        f64::from_bits(self.0[at])
    }

    pub fn a(&self, at: usize) -> Angle {
        Angle { radians: self.n(at) }
    }

    pub fn l(&self, at: usize) -> Length {
        Length { metres: self.n(at) }
    }

    // Vectors and matrices with the parts as they are, minus zero too.
    pub fn v(&self, at: usize) -> Vec3 {
        Vec3 { x: self.n(at), y: self.n(at + 1), z: self.n(at + 2) }
    }

    pub fn m(&self, at: usize) -> Mat33 {
        Mat33 { r0: self.v(at), r1: self.v(at + 3), r2: self.v(at + 6) }
    }
}

// The values of frames, with the parts as they are too.
impl Inputs<'_> {
    pub fn e(&self) -> Ellipsoid {
        Ellipsoid { equatorial_radius: self.l(0), polar_radius: self.l(1), eccentricity: self.n(2), flattening: self.n(3) }
    }

    pub fn g(&self, at: usize) -> GeocentricPosition {
        GeocentricPosition { x: self.l(at), y: self.l(at + 1), z: self.l(at + 2) }
    }

    pub fn d(&self, at: usize) -> GeodeticPosition {
        GeodeticPosition { hp: NVector(self.v(at)), height: self.l(at + 3) }
    }

    pub fn ll(&self) -> LatLong {
        LatLong { latitude: self.a(0), longitude: self.a(1) }
    }

    pub fn w<O: FrameOrientation>(&self, at: usize) -> LocalVector<O> {
        LocalVector { x: self.l(at), y: self.l(at + 1), z: self.l(at + 2), _o: PhantomData }
    }

    pub fn f<O: FrameOrientation>(&self) -> LocalFrame<O> {
        LocalFrame { origin: self.v(1), dir_rm: self.m(4), inv_rm: self.m(13), _o: PhantomData }
    }
}

pub struct Outputs {
    bits: [u64; OUTPUTS],
    count: usize,
}

impl Outputs {
    pub fn put(&mut self, bits: u64) {
        self.bits[self.count] = bits;
        self.count += 1;
    }

    pub fn n(&mut self, x: f64) {
        self.put(one_nan(x.to_bits()));
    }

    pub fn b(&mut self, x: bool) {
        self.put(x as u64);
    }

    pub fn a(&mut self, x: Angle) {
        self.n(x.radians);
    }

    pub fn l(&mut self, x: Length) {
        self.n(x.metres);
    }

    pub fn v(&mut self, v: Vec3) {
        self.n(v.x);
        self.n(v.y);
        self.n(v.z);
    }

    pub fn m(&mut self, m: Mat33) {
        self.v(m.r0);
        self.v(m.r1);
        self.v(m.r2);
    }
}
