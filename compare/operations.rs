// The operations by number, as the library's numbers_apply takes them: what each takes and gives, and the Rust's answer.
use crate::feeds::Feed::{Decimal, Nothing, Number, Pair, Remainder, Root, Turn, Unit, Vectors, Wrap, WrapFull};
use crate::words::{Operation, Outputs, op};
use reference::numbers::{eq, eq_zero, gte, lte};
use reference::{Angle, Length, Mat33, Standins, Vec3};

// Digits and tens, each as the double nearest to it, divided. Where both are doubles exactly and tens is a power of ten, the numeral as std reads it.
fn decimal(negative: bool, digits: u64, tens: u64) -> f64 {
    let exact = digits.max(tens) <= 1 << 53;
    let places = tens.checked_ilog10().unwrap_or(0);
    let x = if exact && tens == 10u64.pow(places) {
        format!("{digits}e-{places}").parse().unwrap()
    } else {
        digits as f64 / tens as f64
    };
    if negative { -x } else { x }
}

pub static OPERATIONS: [Operation; 62] = [
    op("sqrt", 1, 1, Root, |i, o| o.n(i.n(0).std_sqrt())),
    op("sin", 1, 1, Turn, |i, o| o.n(i.n(0).std_sin())),
    op("cos", 1, 1, Turn, |i, o| o.n(i.n(0).std_cos())),
    op("atan2", 2, 1, Pair, |i, o| o.n(i.n(0).std_atan2(i.n(1)))),
    op("asin", 1, 1, Unit, |i, o| o.n(i.n(0).std_asin())),
    op("powf_third", 1, 1, Root, |i, o| o.n(i.n(0).std_powf(1.0 / 3.0))),
    op("powf_three_halves", 1, 1, Root, |i, o| o.n(i.n(0).std_powf(3.0 / 2.0))),
    op("to_radians", 1, 1, Number, |i, o| o.n(i.n(0).std_to_radians())),
    op("to_degrees", 1, 1, Turn, |i, o| o.n(i.n(0).std_to_degrees())),
    op("abs", 1, 1, Number, |i, o| o.n(i.n(0).abs())),
    op("clamp_unit", 1, 1, Unit, |i, o| o.n(i.n(0).clamp(-1.0, 1.0))),
    op("rem", 2, 1, Remainder, |i, o| o.n(i.n(0) % i.n(1))),
    op("decimal", 3, 1, Decimal, |i, o| o.n(decimal(i.0[0] == 1, i.0[1], i.0[2]))),
    op("eq_zero", 1, 1, Number, |i, o| o.b(eq_zero(i.n(0)))),
    op("eq", 2, 1, Pair, |i, o| o.b(eq(i.n(0), i.n(1)))),
    op("lte", 2, 1, Pair, |i, o| o.b(lte(i.n(0), i.n(1)))),
    op("gte", 2, 1, Pair, |i, o| o.b(gte(i.n(0), i.n(1)))),
    op("Angle::from_degrees", 1, 1, Number, |i, o| o.a(Angle::from_degrees(i.n(0)))),
    op("Angle::as_degrees", 1, 1, Turn, |i, o| o.n(i.a(0).as_degrees())),
    op("Angle::abs", 1, 1, Number, |i, o| o.a(i.a(0).abs())),
    op("Angle::normalised", 1, 1, WrapFull, |i, o| o.a(i.a(0).normalised())),
    op("Angle::normalised_to", 2, 1, Wrap, |i, o| o.a(i.a(0).normalised_to(i.a(1)))),
    op("Angle::neg", 1, 1, Number, |i, o| o.a(-i.a(0))),
    op("Angle::eq", 2, 1, Pair, |i, o| o.b(i.a(0) == i.a(1))),
    op("Length::abs", 1, 1, Number, |i, o| o.l(i.l(0).abs())),
    op("Length::neg", 1, 1, Number, |i, o| o.l(-i.l(0))),
    op("Length::mul", 2, 1, Pair, |i, o| o.l(i.l(0) * i.n(1))),
    op("Length::div", 2, 1, Pair, |i, o| o.n(i.l(0) / i.l(1))),
    op("Vec3::new", 3, 3, Vectors, |i, o| o.v(Vec3::new(i.n(0), i.n(1), i.n(2)))),
    op("Vec3::new_unit", 3, 3, Vectors, |i, o| o.v(Vec3::new_unit(i.n(0), i.n(1), i.n(2)))),
    op("Vec3::cross_prod", 6, 3, Vectors, |i, o| o.v(i.v(0).cross_prod(i.v(3)))),
    op("Vec3::cross_prod_unit", 6, 3, Vectors, |i, o| o.v(i.v(0).cross_prod_unit(i.v(3)))),
    op("Vec3::dot_prod", 6, 1, Vectors, |i, o| o.n(i.v(0).dot_prod(i.v(3)))),
    op("Vec3::orthogonal_to", 6, 3, Vectors, |i, o| o.v(i.v(0).orthogonal_to(i.v(3)))),
    op("Vec3::orthogonal", 3, 3, Vectors, |i, o| o.v(i.v(0).orthogonal())),
    op("Vec3::norm", 3, 1, Vectors, |i, o| o.n(i.v(0).norm())),
    op("Vec3::stable_cross_prod_unit", 6, 3, Vectors, |i, o| o.v(i.v(0).stable_cross_prod_unit(i.v(3)))),
    op("Vec3::stable_cross_prod", 6, 3, Vectors, |i, o| o.v(i.v(0).stable_cross_prod(i.v(3)))),
    op("Vec3::squared_norm", 3, 1, Vectors, |i, o| o.n(i.v(0).squared_norm())),
    op("Vec3::unit", 3, 3, Vectors, |i, o| o.v(i.v(0).unit())),
    op("Vec3::add", 6, 3, Vectors, |i, o| o.v(i.v(0) + i.v(3))),
    op("Vec3::sub", 6, 3, Vectors, |i, o| o.v(i.v(0) - i.v(3))),
    op("Vec3::mul", 4, 3, Vectors, |i, o| o.v(i.v(0) * i.n(3))),
    op("Vec3::neg", 3, 3, Vectors, |i, o| o.v(-i.v(0))),
    op("Vec3::eq", 6, 1, Vectors, |i, o| o.b(i.v(0) == i.v(3))),
    op("Mat33::transpose", 9, 9, Vectors, |i, o| o.m(i.m(0).transpose())),
    op("Mat33::mul", 18, 9, Vectors, |i, o| o.m(i.m(0) * i.m(9))),
    op("Mat33::eq", 18, 1, Vectors, |i, o| o.b(i.m(0) == i.m(9))),
    op("Vec3::mul_mat33", 12, 3, Vectors, |i, o| o.v(i.v(0) * i.m(3))),
    op("Angle constants", 0, 7, Nothing, |_, o| angles(o)),
    op("Vec3 constants", 0, 21, Nothing, |_, o| vectors(o)),
    op("Mat33::IDENTITY", 0, 9, Nothing, |_, o| o.m(Mat33::IDENTITY)),
    op("Vec3 x y z", 3, 3, Vectors, |i, o| parts(i.v(0), o)),
    op("Mat33 row0 row1 row2", 9, 9, Vectors, |i, o| rows(i.m(0), o)),
    op("Mat33::new", 9, 9, Vectors, |i, o| o.m(Mat33::new(i.v(0), i.v(3), i.v(6)))),
    op("Angle::from_radians as_radians", 1, 1, Number, |i, o| o.n(Angle::from_radians(i.n(0)).as_radians())),
    op("Length::from_metres as_metres", 1, 1, Number, |i, o| o.n(Length::from_metres(i.n(0)).as_metres())),
    op("sign_bit", 1, 1, Number, |i, o| o.b(i.n(0).is_sign_negative() && !i.n(0).is_nan())),
    op("Length::ZERO", 0, 1, Nothing, |_, o| o.l(Length::ZERO)),
    op("Vec3::div", 4, 3, Vectors, |i, o| o.v(i.v(0) / i.n(3))),
    op("Length::div_f64", 2, 1, Pair, |i, o| o.l(i.l(0) / i.n(1))),
    op("Length::add", 2, 1, Pair, |i, o| o.l(i.l(0) + i.l(1))),
];

fn parts(v: Vec3, o: &mut Outputs) {
    o.n(v.x());
    o.n(v.y());
    o.n(v.z());
}

fn rows(m: Mat33, o: &mut Outputs) {
    o.v(m.row0());
    o.v(m.row1());
    o.v(m.row2());
}

fn angles(o: &mut Outputs) {
    o.a(Angle::ZERO);
    o.a(Angle::QUARTER_CIRCLE);
    o.a(Angle::NEG_QUARTER_CIRCLE);
    o.a(Angle::HALF_CIRCLE);
    o.a(Angle::NEG_HALF_CIRCLE);
    o.a(Angle::FULL_CIRCLE);
    o.a(Angle::DBL_EPSILON);
}

fn vectors(o: &mut Outputs) {
    o.v(Vec3::UNIT_X);
    o.v(Vec3::UNIT_Y);
    o.v(Vec3::UNIT_Z);
    o.v(Vec3::NEG_UNIT_X);
    o.v(Vec3::NEG_UNIT_Y);
    o.v(Vec3::NEG_UNIT_Z);
    o.v(Vec3::ZERO);
}
