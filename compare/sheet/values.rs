// Values of the machine: their limits, and what a show writes of them.
use reference::local::{
    Body, BodyFrame, BodyVector, Enu, EnuFrame, EnuVector, FrameOrientation, LocalFrame, LocalVector, Ned, NedFrame, NedVector, WanderAzimuth,
    WanderAzimuthFrame, WanderAzimuthVector,
};
use reference::{Angle, GeocentricPosition, GeodeticPosition, Length, Vec3};

// One case a kind.
#[derive(Clone, Copy)]
pub enum Value {
    Number(f64),
    Angle(Angle),
    Length(Length),
    Geocentric(GeocentricPosition),
    Geodetic(GeodeticPosition),
    Venu(EnuVector),
    Vned(NedVector),
    Vbody(BodyVector),
    Vwan(WanderAzimuthVector),
    Fenu(EnuFrame),
    Fned(NedFrame),
    Fbody(BodyFrame),
    Fwan(WanderAzimuthFrame),
}

// An orientation's vectors as values.
pub trait Oriented: FrameOrientation {
    fn vector(v: LocalVector<Self>) -> Value;
}

macro_rules! oriented {
    ($($orientation:ident $vector:ident)*) => {
        $(impl Oriented for $orientation {
            fn vector(v: LocalVector<Self>) -> Value {
                Value::$vector(v)
            }
        })*
    };
}

oriented! { Enu Venu Ned Vned Body Vbody WanderAzimuth Vwan }

// NaN lies in no range.
fn metres(x: f64) -> bool {
    (-1e8..=1e8).contains(&x)
}

fn vec3(v: Vec3) -> bool {
    metres(v.x) && metres(v.y) && metres(v.z)
}

fn lengths(x: Length, y: Length, z: Length) -> bool {
    metres(x.metres) && metres(y.metres) && metres(z.metres)
}

impl Value {
    // Whether refusal 7 leaves it alone.
    pub fn within_limits(&self) -> bool {
        match self {
            Value::Number(n) => metres(*n),
            Value::Angle(a) => (-64.0..=64.0).contains(&a.radians),
            Value::Length(l) => metres(l.metres),
            Value::Geocentric(p) => lengths(p.x, p.y, p.z),
            Value::Geodetic(p) => metres(p.height.metres),
            Value::Venu(v) => lengths(v.x, v.y, v.z),
            Value::Vned(v) => lengths(v.x, v.y, v.z),
            Value::Vbody(v) => lengths(v.x, v.y, v.z),
            Value::Vwan(v) => lengths(v.x, v.y, v.z),
            Value::Fenu(f) => vec3(f.origin),
            Value::Fned(f) => vec3(f.origin),
            Value::Fbody(f) => vec3(f.origin),
            Value::Fwan(f) => vec3(f.origin),
        }
    }

    pub fn kind(&self) -> &'static [u8] {
        match self {
            Value::Number(_) => b"n",
            Value::Angle(_) => b"a",
            Value::Length(_) => b"l",
            Value::Geocentric(_) => b"g",
            Value::Geodetic(_) => b"d",
            Value::Venu(_) => b"venu",
            Value::Vned(_) => b"vned",
            Value::Vbody(_) => b"vbody",
            Value::Vwan(_) => b"vwan",
            Value::Fenu(_) => b"fenu",
            Value::Fned(_) => b"fned",
            Value::Fbody(_) => b"fbody",
            Value::Fwan(_) => b"fwan",
        }
    }

    // The fields of its output line, in order.
    pub fn fields(&self, field: impl FnMut(f64)) {
        let all = Fields(field);
        match self {
            Value::Number(n) => all.each([*n]),
            Value::Angle(a) => all.each([a.radians]),
            Value::Length(l) => all.each([l.metres]),
            Value::Geocentric(p) => all.each([p.x.metres, p.y.metres, p.z.metres]),
            Value::Geodetic(p) => all.each([p.hp.0.x, p.hp.0.y, p.hp.0.z, p.height.metres]),
            Value::Venu(v) => all.vector(v),
            Value::Vned(v) => all.vector(v),
            Value::Vbody(v) => all.vector(v),
            Value::Vwan(v) => all.vector(v),
            Value::Fenu(f) => all.frame(f),
            Value::Fned(f) => all.frame(f),
            Value::Fbody(f) => all.frame(f),
            Value::Fwan(f) => all.frame(f),
        }
    }
}

struct Fields<T>(T);

impl<T: FnMut(f64)> Fields<T> {
    fn each<const N: usize>(self, fields: [f64; N]) {
        fields.into_iter().for_each(self.0)
    }

    fn vector<O: FrameOrientation>(self, v: &LocalVector<O>) {
        self.each([v.x.metres, v.y.metres, v.z.metres])
    }

    fn frame<O: FrameOrientation>(self, f: &LocalFrame<O>) {
        let (m, o) = (f.dir_rm, f.origin);
        self.each([o.x, o.y, o.z, m.r0.x, m.r0.y, m.r0.z, m.r1.x, m.r1.y, m.r1.z, m.r2.x, m.r2.y, m.r2.z])
    }
}
