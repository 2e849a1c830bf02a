// The rows of the kind table, each by its Rust name, and refusal 8.
use super::values::{Oriented, Value};
use super::words::Op;
use reference::ellipsoidal::Ellipsoid;
use reference::local::{Body, BodyFrame, Enu, EnuFrame, LocalFrame, LocalVector, Ned, NedFrame, WanderAzimuth, WanderAzimuthFrame, r2zyx};
use reference::{Angle, GeocentricPosition, GeodeticPosition, Length, NVector, PositionVector, Surface};

pub enum Stop {
    // no row for the values met
    Stuck,
    // refusal 8
    Centre,
}

type Applied = Result<Value, Stop>;

// The body for a value of one of these kinds.
macro_rules! with_one {
    ($value:expr, $x:ident => $body:expr, $($case:ident)*) => {
        match $value {
            $(Value::$case($x) => $body,)*
            _ => return Err(Stop::Stuck),
        }
    };
}

// The body for a vector, or a frame, of whichever orientation.
macro_rules! with_vector {
    ($value:expr, $v:ident => $body:expr) => {
        with_one!($value, $v => $body, Venu Vned Vbody Vwan)
    };
}

macro_rules! with_frame {
    ($value:expr, $f:ident => $body:expr) => {
        with_one!($value, $f => $body, Fenu Fned Fbody Fwan)
    };
}

// The body for two values that share their orientation.
macro_rules! with_both {
    ($values:expr, ($x:ident, $y:ident) => $body:expr, $($first:ident $second:ident)*) => {
        match $values {
            $((Value::$first($x), Value::$second($y)) => $body,)*
            _ => return Err(Stop::Stuck),
        }
    };
}

macro_rules! with_vectors {
    ($v:expr, $w:expr, ($x:ident, $y:ident) => $body:expr) => {
        with_both!(($v, $w), ($x, $y) => $body, Venu Venu Vned Vned Vbody Vbody Vwan Vwan)
    };
}

macro_rules! with_frame_and_vector {
    ($f:expr, $v:expr, ($x:ident, $y:ident) => $body:expr) => {
        with_both!(($f, $v), ($x, $y) => $body, Fenu Venu Fned Vned Fbody Vbody Fwan Vwan)
    };
}

pub fn apply(op: Op, arguments: &[Value], earth: Ellipsoid) -> Applied {
    match op {
        Op::Deg | Op::M | Op::Geo | Op::Lla | Op::Togeo | Op::Tolla => position(op, arguments, earth),
        Op::Venu => by_axes::<Enu>(arguments),
        Op::Vned => by_axes::<Ned>(arguments),
        Op::Vbody => by_axes::<Body>(arguments),
        Op::Vwan => by_axes::<WanderAzimuth>(arguments),
        Op::Aenu => by_angles::<Enu>(arguments),
        Op::Aned => by_angles::<Ned>(arguments),
        Op::Abody => by_angles::<Body>(arguments),
        Op::Awan => by_angles::<WanderAzimuth>(arguments),
        Op::Enu | Op::Ned | Op::Wan | Op::Body | Op::Look => frame(op, arguments, earth),
        Op::Turn | Op::Move | Op::To | Op::At | Op::Origin => from_frame(op, arguments),
        Op::Neg | Op::Add | Op::Sub | Op::Scale | Op::Swap => from_vector(op, arguments),
        Op::Bearing | Op::Elev | Op::Range | Op::Rz | Op::Ry | Op::Rx => measure(op, arguments),
    }
}

fn position(op: Op, arguments: &[Value], earth: Ellipsoid) -> Applied {
    Ok(match (op, arguments) {
        (Op::Deg, [Value::Number(n)]) => Value::Angle(Angle::from_degrees(*n)),
        (Op::M, [Value::Number(n)]) => Value::Length(Length::from_metres(*n)),
        (Op::Geo, [Value::Length(x), Value::Length(y), Value::Length(z)]) => Value::Geocentric(GeocentricPosition::new(*x, *y, *z)),
        (Op::Lla, [Value::Angle(latitude), Value::Angle(longitude), Value::Length(height)]) => {
            Value::Geodetic(GeodeticPosition::new(NVector::from_lat_long(*latitude, *longitude), *height))
        }
        (Op::Togeo, [Value::Geodetic(p)]) => Value::Geocentric(earth.geodetic_to_geocentric_position(*p)),
        (Op::Tolla, [Value::Geocentric(p)]) => Value::Geodetic(earth.geocentric_to_geodetic_position(off_centre(*p, earth)?)),
        _ => return Err(Stop::Stuck),
    })
}

// Refusal 8, with p and q by the steps of `geocentric_to_geodetic_position`.
fn off_centre(position: GeocentricPosition, earth: Ellipsoid) -> Result<GeocentricPosition, Stop> {
    let v = position.as_metres();
    let e2 = earth.eccentricity * earth.eccentricity;
    let a = earth.equatorial_radius.metres;
    let a2 = a * a;
    let p = (v.x * v.x + v.y * v.y) / a2;
    let q = ((1.0 - e2) / a2) * (v.z * v.z);
    if p + q >= 0.25 { Ok(position) } else { Err(Stop::Centre) }
}

fn by_axes<O: Oriented>(arguments: &[Value]) -> Applied {
    match arguments {
        [Value::Length(x), Value::Length(y), Value::Length(z)] => Ok(O::vector(LocalVector::new(*x, *y, *z))),
        _ => Err(Stop::Stuck),
    }
}

fn by_angles<O: Oriented>(arguments: &[Value]) -> Applied {
    match arguments {
        [Value::Angle(azimuth), Value::Angle(elevation), Value::Length(range)] => {
            Ok(O::vector(LocalVector::from_aer(*azimuth, *elevation, *range)))
        }
        _ => Err(Stop::Stuck),
    }
}

fn frame(op: Op, arguments: &[Value], earth: Ellipsoid) -> Applied {
    use Value::{Angle, Fbody, Fenu, Fned, Fwan, Geocentric, Geodetic};
    Ok(match (op, arguments) {
        (Op::Enu, [Geocentric(p)]) => Fenu(EnuFrame::from_geocentric(off_centre(*p, earth)?, earth)),
        (Op::Enu, [Geodetic(p)]) => Fenu(EnuFrame::from_geodetic(*p, earth)),
        (Op::Ned, [Geocentric(p)]) => Fned(NedFrame::from_geocentric(off_centre(*p, earth)?, earth)),
        (Op::Ned, [Geodetic(p)]) => Fned(NedFrame::from_geodetic(*p, earth)),
        (Op::Wan, [Angle(azimuth), Geocentric(p)]) => Fwan(WanderAzimuthFrame::from_geocentric(*azimuth, off_centre(*p, earth)?, earth)),
        (Op::Wan, [Angle(azimuth), Geodetic(p)]) => Fwan(WanderAzimuthFrame::from_geodetic(*azimuth, *p, earth)),
        (Op::Body, [Angle(yaw), Angle(pitch), Angle(roll), Geocentric(p)]) => {
            Fbody(BodyFrame::from_geocentric(*yaw, *pitch, *roll, off_centre(*p, earth)?, earth))
        }
        (Op::Body, [Angle(yaw), Angle(pitch), Angle(roll), Geodetic(p)]) => Fbody(BodyFrame::from_geodetic(*yaw, *pitch, *roll, *p, earth)),
        (Op::Look, [Geocentric(from), Geocentric(at), Angle(roll)]) => {
            Fbody(BodyFrame::looking_at_geocentric(off_centre(*from, earth)?, *at, *roll, earth))
        }
        (Op::Look, [Geodetic(from), Geodetic(at), Angle(roll)]) => Fbody(BodyFrame::looking_at_geodetic(*from, *at, *roll, earth)),
        _ => return Err(Stop::Stuck),
    })
}

fn from_frame(op: Op, arguments: &[Value]) -> Applied {
    Ok(match (op, arguments) {
        (Op::Turn, [Value::Fenu(f), Value::Angle(angle)]) => Value::Fwan(f.rotate_around_z(*angle)),
        (Op::Turn, [Value::Fned(f), Value::Angle(angle)]) => Value::Fwan(f.rotate_around_z(*angle)),
        (Op::Turn, [Value::Fwan(f), Value::Angle(angle)]) => Value::Fwan(f.rotate_around_z(*angle)),
        (Op::Move, [f, v, Value::Angle(yaw), Value::Angle(pitch), Value::Angle(roll)]) => {
            Value::Fbody(with_frame_and_vector!(f, v, (f, v) => f.transform(*v, *yaw, *pitch, *roll)))
        }
        (Op::To, [f, Value::Geocentric(p)]) => with_frame!(f, f => to(f, *p)),
        (Op::At, [f, v]) => Value::Geocentric(with_frame_and_vector!(f, v, (f, v) => f.destination_position(*v))),
        (Op::Origin, [f]) => Value::Geocentric(with_frame!(f, f => GeocentricPosition::from_vec3_metres(f.origin))),
        _ => return Err(Stop::Stuck),
    })
}

fn to<O: Oriented>(frame: &LocalFrame<O>, position: GeocentricPosition) -> Value {
    O::vector(frame.local_vector_to(position))
}

fn from_vector(op: Op, arguments: &[Value]) -> Applied {
    Ok(match (op, arguments) {
        (Op::Neg, [v]) => with_vector!(v, v => Oriented::vector(-*v)),
        (Op::Add, [v, w]) => with_vectors!(v, w, (v, w) => Oriented::vector(*v + *w)),
        (Op::Sub, [v, w]) => with_vectors!(v, w, (v, w) => Oriented::vector(*v - *w)),
        (Op::Scale, [v, Value::Number(n)]) => with_vector!(v, v => Oriented::vector(*v * *n)),
        (Op::Swap, [Value::Venu(v)]) => Value::Vned((*v).into()),
        (Op::Swap, [Value::Vned(v)]) => Value::Venu((*v).into()),
        _ => return Err(Stop::Stuck),
    })
}

fn measure(op: Op, arguments: &[Value]) -> Applied {
    Ok(match (op, arguments) {
        (Op::Bearing, [v]) => Value::Angle(with_vector!(v, v => v.bearing())),
        (Op::Elev, [v]) => Value::Angle(with_vector!(v, v => v.elevation())),
        (Op::Range, [v]) => Value::Length(with_vector!(v, v => v.slant_range())),
        (Op::Rz, [f]) => Value::Angle(with_frame!(f, f => r2zyx(f.dir_rm)).0),
        (Op::Ry, [f]) => Value::Angle(with_frame!(f, f => r2zyx(f.dir_rm)).1),
        (Op::Rx, [f]) => Value::Angle(with_frame!(f, f => r2zyx(f.dir_rm)).2),
        _ => return Err(Stop::Stuck),
    })
}
