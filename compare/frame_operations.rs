// The operations on frames by number, as the library's frames_apply takes them: what each takes and gives, and the Rust's answer.
// An ellipsoid is the first four words; an orientation is the first word, and a vector's or a frame's answer begins with it.
use crate::earth::Part::{self, *};
use crate::feeds::Feed::{Nothing, Parts, Westward};
use crate::words::{Inputs, Operation, Outputs, op};
use reference::local::{
    Body, BodyFrame, Enu, EnuFrame, EnuVector, FrameOrientation, LocalFrame, LocalVector, Ned, NedFrame, NedVector, WanderAzimuth,
    WanderAzimuthFrame, align_to_z_down_matrix, r2xyz, r2zyx, xyz2r, zyx2r,
};
use reference::{Angle, GeocentricPosition, GeodeticPosition, LatLong, NVector, PositionVector, Surface, Vec3};
use reference::ellipsoidal::Ellipsoid;

// The orientations by their numbers.
trait Numbered: FrameOrientation {
    const NUMBER: u64;
}

impl Numbered for Enu {
    const NUMBER: u64 = 0;
}

impl Numbered for Ned {
    const NUMBER: u64 = 1;
}

impl Numbered for Body {
    const NUMBER: u64 = 2;
}

impl Numbered for WanderAzimuth {
    const NUMBER: u64 = 3;
}

// The body with the type O of the orientation that the first word says; with another for the body frame where the Rust leaves that out.
macro_rules! oriented {
    ($i:expr, $o:ident => $body:expr) => {
        oriented!($i, $o => $body, {
            type $o = Body;
            $body
        })
    };
    ($i:expr, $o:ident => $body:expr, $at_body:expr) => {
        match $i.0[0] {
            0 => {
                type $o = Enu;
                $body
            }
            1 => {
                type $o = Ned;
                $body
            }
            2 => $at_body,
            _ => {
                type $o = WanderAzimuth;
                $body
            }
        }
    };
}

impl Outputs {
    fn e(&mut self, l: Ellipsoid) {
        self.l(l.equatorial_radius);
        self.l(l.polar_radius);
        self.n(l.eccentricity);
        self.n(l.flattening);
    }

    fn g(&mut self, p: GeocentricPosition) {
        self.l(p.x);
        self.l(p.y);
        self.l(p.z);
    }

    fn d(&mut self, p: GeodeticPosition) {
        self.v(p.hp.0);
        self.l(p.height);
    }

    fn angles(&mut self, (x, y, z): (Angle, Angle, Angle)) {
        self.a(x);
        self.a(y);
        self.a(z);
    }

    fn w<O: Numbered>(&mut self, v: LocalVector<O>) {
        self.put(O::NUMBER);
        self.l(v.x);
        self.l(v.y);
        self.l(v.z);
    }

    fn f<O: Numbered>(&mut self, f: LocalFrame<O>) {
        self.put(O::NUMBER);
        self.v(f.origin);
        self.m(f.dir_rm);
        self.m(f.inv_rm);
    }
}

const fn words(parts: &[Part]) -> usize {
    let mut count = 0;
    let mut k = 0;
    while k < parts.len() {
        count += parts[k].words();
        k += 1;
    }
    count
}

const fn made(name: &'static str, outputs: usize, parts: &'static [Part], answer: fn(&Inputs, &mut Outputs)) -> Operation {
    op(name, words(parts), outputs, Parts(parts), answer)
}

// An operation that takes a bearing.
const fn westward(name: &'static str, outputs: usize, parts: &'static [Part], answer: fn(&Inputs, &mut Outputs)) -> Operation {
    op(name, words(parts), outputs, Westward(parts), answer)
}

pub static OPERATIONS: [Operation; 60] = [
    made("GeocentricPosition::new x y z", 3, &[Geocentric], |i, o| coordinates(GeocentricPosition::new(i.l(0), i.l(1), i.l(2)), o)),
    made("GeocentricPosition::from_metres", 3, &[Geocentric], |i, o| o.g(GeocentricPosition::from_metres(i.n(0), i.n(1), i.n(2)))),
    made("GeocentricPosition::from_vec3_metres", 3, &[Geocentric], |i, o| o.g(GeocentricPosition::from_vec3_metres(i.v(0)))),
    made("GeocentricPosition::as_metres", 3, &[Geocentric], |i, o| o.v(i.g(0).as_metres())),
    made("GeodeticPosition::new and parts", 4, &[Geodetic], |i, o| parts(GeodeticPosition::new(NVector(i.v(0)), i.l(3)), o)),
    made("LatLong::new and parts", 2, &[Horizontal], |i, o| two(LatLong::new(i.a(0), i.a(1)), o)),
    made("LatLong::from_nvector", 2, &[Nvector], |i, o| two(LatLong::from_nvector(NVector(i.v(0))), o)),
    made("LatLong::to_nvector", 3, &[Horizontal], |i, o| o.v(i.ll().to_nvector().0)),
    made("NVector::from_lat_long", 3, &[Horizontal], |i, o| o.v(NVector::from_lat_long(i.a(0), i.a(1)).0)),
    made("NVector::new as_vec3", 3, &[Nvector], |i, o| o.v(NVector::new(i.v(0)).as_vec3())),
    made("Ellipsoid::new", 4, &[Radius, Inverse], |i, o| o.e(Ellipsoid::new(i.l(0), i.n(1)))),
    op("Ellipsoid::WGS84", 0, 4, Nothing, |_, o| o.e(Ellipsoid::WGS84)),
    op("Ellipsoid::WGS84 by wgs84", 0, 4, Nothing, |_, o| o.e(Ellipsoid::WGS84)),
    made("Ellipsoid's fields", 4, &[Figure], |i, o| figures(i.e(), o)),
    made("geodetic_to_geocentric_position", 3, &[Figure, Geodetic], |i, o| o.g(i.e().geodetic_to_geocentric_position(i.d(4)))),
    made("geocentric_to_geodetic_position", 4, &[Figure, Geocentric], |i, o| o.d(i.e().geocentric_to_geodetic_position(i.g(4)))),
    made("p and q of it, and their sum", 3, &[Figure, Geocentric], |i, o| centre(i.e(), i.v(4), o)),
    made("LocalVector::ZERO", 4, &[Orientation], |i, o| oriented!(i, O => o.w(LocalVector::<O>::ZERO))),
    made("LocalVector::new x y z", 3, &[Orientation, Vector], |i, o| oriented!(i, O => components(LocalVector::<O>::new(i.l(1), i.l(2), i.l(3)), o))),
    made("LocalVector::from_metres", 4, &[Orientation, Vector], |i, o| oriented!(i, O => o.w(LocalVector::<O>::from_metres(i.n(1), i.n(2), i.n(3))))),
    made("LocalVector::from_vec3_metres", 4, &[Orientation, Vector], |i, o| oriented!(i, O => o.w(LocalVector::<O>::from_vec3_metres(i.v(1))))),
    made("LocalVector::from_aer", 4, &[Orientation, Turn, Turn, Metres], |i, o| oriented!(i, O => o.w(LocalVector::<O>::from_aer(i.a(1), i.a(2), i.l(3))))),
    made("LocalVector::as_metres", 3, &[Orientation, Vector], |i, o| oriented!(i, O => o.v(i.w::<O>(1).as_metres()))),
    made("LocalVector::slant_range", 1, &[Orientation, Vector], |i, o| oriented!(i, O => o.l(i.w::<O>(1).slant_range()))),
    made("LocalVector::elevation", 1, &[Orientation, Vector], |i, o| oriented!(i, O => o.a(i.w::<O>(1).elevation()))),
    westward("LocalVector::bearing", 1, &[Orientation, Vector], |i, o| oriented!(i, O => o.a(i.w::<O>(1).bearing()))),
    made("LocalVector::add", 4, &[Orientation, Vector, Vector], |i, o| oriented!(i, O => o.w(i.w::<O>(1) + i.w::<O>(4)))),
    made("LocalVector::sub", 4, &[Orientation, Vector, Vector], |i, o| oriented!(i, O => o.w(i.w::<O>(1) - i.w::<O>(4)))),
    made("LocalVector::mul", 4, &[Orientation, Vector, Factor], |i, o| oriented!(i, O => o.w(i.w::<O>(1) * i.n(4)))),
    made("LocalVector::neg", 4, &[Orientation, Vector], |i, o| oriented!(i, O => o.w(-i.w::<O>(1)))),
    made("LocalVector::swap", 4, &[Orientation, Vector], |i, o| swap(i, o)),
    made("is_z_up", 1, &[Orientation], |i, o| oriented!(i, O => o.b(O::is_z_up()))),
    op("align_to_z_down_matrix", 0, 9, Nothing, |_, o| o.m(align_to_z_down_matrix())),
    made("zyx2r", 9, &[Turn, Turn, Turn], |i, o| o.m(zyx2r(i.a(0), i.a(1), i.a(2)))),
    made("xyz2r", 9, &[Turn, Turn, Turn], |i, o| o.m(xyz2r(i.a(0), i.a(1), i.a(2)))),
    made("r2xyz", 3, &[Matrix], |i, o| o.angles(r2xyz(i.m(0)))),
    made("r2zyx", 3, &[Matrix], |i, o| o.angles(r2zyx(i.m(0)))),
    made("EnuFrame::from_geocentric", 22, &[Figure, Geocentric], |i, o| o.f(EnuFrame::from_geocentric(i.g(4), i.e()))),
    made("EnuFrame::from_geodetic", 22, &[Figure, Geodetic], |i, o| o.f(EnuFrame::from_geodetic(i.d(4), i.e()))),
    made("NedFrame::from_geocentric", 22, &[Figure, Geocentric], |i, o| o.f(NedFrame::from_geocentric(i.g(4), i.e()))),
    made("NedFrame::from_geodetic", 22, &[Figure, Geodetic], |i, o| o.f(NedFrame::from_geodetic(i.d(4), i.e()))),
    made("BodyFrame::from_geocentric", 22, &[Figure, Geocentric, Turn, Turn, Turn], |i, o| {
        o.f(BodyFrame::from_geocentric(i.a(7), i.a(8), i.a(9), i.g(4), i.e()))
    }),
    made("BodyFrame::from_geodetic", 22, &[Figure, Geodetic, Turn, Turn, Turn], |i, o| {
        o.f(BodyFrame::from_geodetic(i.a(8), i.a(9), i.a(10), i.d(4), i.e()))
    }),
    made("WanderAzimuthFrame::from_geocentric", 22, &[Figure, Geocentric, Turn], |i, o| {
        o.f(WanderAzimuthFrame::from_geocentric(i.a(7), i.g(4), i.e()))
    }),
    made("WanderAzimuthFrame::from_geodetic", 22, &[Figure, Geodetic, Turn], |i, o| {
        o.f(WanderAzimuthFrame::from_geodetic(i.a(8), i.d(4), i.e()))
    }),
    westward("BodyFrame::looking_at_geocentric", 22, &[Figure, Geocentric, Geocentric, Turn], |i, o| {
        o.f(BodyFrame::looking_at_geocentric(i.g(4), i.g(7), i.a(10), i.e()))
    }),
    westward("BodyFrame::looking_at_geodetic", 22, &[Figure, Geodetic, Geodetic, Turn], |i, o| {
        o.f(BodyFrame::looking_at_geodetic(i.d(4), i.d(8), i.a(12), i.e()))
    }),
    made("LocalFrame::rotate_around_z", 22, &[Level, Frame, Turn], |i, o| {
        oriented!(i, O => o.f(i.f::<O>().rotate_around_z(i.a(22))), unreachable!())
    }),
    made("LocalFrame::local_to_earth_matrix", 9, &[Orientation, Frame], |i, o| {
        oriented!(i, O => o.m(i.f::<O>().local_to_earth_matrix()), o.m(i.f::<Body>().dir_rm))
    }),
    made("LocalFrame::earth_to_local_matrix", 9, &[Orientation, Frame], |i, o| {
        oriented!(i, O => o.m(i.f::<O>().earth_to_local_matrix()), o.m(i.f::<Body>().inv_rm))
    }),
    made("LocalFrame::origin", 3, &[Orientation, Frame], |i, o| oriented!(i, O => o.g(i.f::<O>().origin()), o.v(i.f::<Body>().origin))),
    made("LocalFrame::transform", 22, &[Orientation, Frame, Vector, Turn, Turn, Turn], |i, o| {
        oriented!(i, O => o.f(i.f::<O>().transform(i.w(22), i.a(25), i.a(26), i.a(27))))
    }),
    made("LocalFrame::local_vector_to", 4, &[Orientation, Frame, Geocentric], |i, o| oriented!(i, O => o.w(i.f::<O>().local_vector_to(i.g(22))))),
    made("LocalFrame::destination_position", 3, &[Orientation, Frame, Vector], |i, o| {
        oriented!(i, O => o.g(i.f::<O>().destination_position(i.w(22))))
    }),
    made("Ellipsoid::geocentric_radius", 1, &[Figure, Latitude], |i, o| o.l(i.e().geocentric_radius(i.a(4)))),
    made("Ellipsoid::latitude_radius", 1, &[Figure, Latitude], |i, o| o.l(i.e().latitude_radius(i.a(4)))),
    made("Ellipsoid::prime_vertical_radius", 1, &[Figure, Latitude], |i, o| o.l(i.e().prime_vertical_radius(i.a(4)))),
    made("Ellipsoid::meridian_radius", 1, &[Figure, Latitude], |i, o| o.l(i.e().meridian_radius(i.a(4)))),
    made("Ellipsoid::mean_radius", 1, &[Figure], |i, o| o.l(i.e().mean_radius())),
    made("LocalVector::div", 4, &[Orientation, Vector, Factor], |i, o| oriented!(i, O => o.w(i.w::<O>(1) / i.n(4)))),
];

fn coordinates(p: GeocentricPosition, o: &mut Outputs) {
    o.l(p.x());
    o.l(p.y());
    o.l(p.z());
}

fn components<O: FrameOrientation>(v: LocalVector<O>, o: &mut Outputs) {
    o.l(v.x());
    o.l(v.y());
    o.l(v.z());
}

fn parts(p: GeodeticPosition, o: &mut Outputs) {
    o.v(p.horizontal_position().0);
    o.l(p.height());
}

fn two(l: LatLong, o: &mut Outputs) {
    o.a(l.latitude());
    o.a(l.longitude());
}

fn figures(l: Ellipsoid, o: &mut Outputs) {
    o.l(l.equatorial_radius());
    o.l(l.polar_radius());
    o.n(l.eccentricity());
    o.n(l.flattening());
}

// The lines of `geocentric_to_geodetic_position` up to p and q, which the Rust keeps to itself.
fn centre(l: Ellipsoid, pv: Vec3, o: &mut Outputs) {
    let (px, py, pz) = (pv.x(), pv.y(), pv.z());
    let e2 = l.eccentricity * l.eccentricity;
    let a = l.equatorial_radius.as_metres();
    let a2 = a * a;
    let p = (px * px + py * py) / a2;
    let q = ((1.0 - e2) / a2) * (pz * pz);
    o.n(p);
    o.n(q);
    o.n(p + q);
}

// The Rust has the conversion for two orientations; the other two stay as they are.
fn swap(i: &Inputs, o: &mut Outputs) {
    match i.0[0] {
        0 => o.w(NedVector::from(i.w::<Enu>(1))),
        1 => o.w(EnuVector::from(i.w::<Ned>(1))),
        2 => o.w(i.w::<Body>(1)),
        _ => o.w(i.w::<WanderAzimuth>(1)),
    }
}
