// What the published files lean on and do not hold: the trait and the operators of a wrapped number. By document 01 an operator not spelled out is that operation on the one number held.
pub trait Measurement: Sized {
    fn from_default_unit(amount: f64) -> Self;
    fn as_default_unit(&self) -> f64;
}

// `a OP b`, by way of the numbers held.
macro_rules! impl_operator {
    ($op:ident, $fn:ident, $left:ty, $right:ty => $out:ty, |$a:ident, $b:ident| $body:expr) => {
        impl ::std::ops::$op<$right> for $left {
            type Output = $out;

            fn $fn(self, rhs: $right) -> $out {
                let ($a, $b) = (self, rhs);
                $body
            }
        }
    };
}

macro_rules! impl_measurement {
    ($t:ty) => {
        impl ::std::ops::Neg for $t {
            type Output = $t;

            fn neg(self) -> $t {
                <$t>::from_default_unit(-self.as_default_unit())
            }
        }

        impl_operator!(Add, add, $t, $t => $t, |a, b| <$t>::from_default_unit(a.as_default_unit() + b.as_default_unit()));
        impl_operator!(Sub, sub, $t, $t => $t, |a, b| <$t>::from_default_unit(a.as_default_unit() - b.as_default_unit()));
        impl_operator!(Mul, mul, $t, f64 => $t, |a, b| <$t>::from_default_unit(a.as_default_unit() * b));
        impl_operator!(Mul, mul, f64, $t => $t, |a, b| <$t>::from_default_unit(a * b.as_default_unit()));
        impl_operator!(Div, div, $t, f64 => $t, |a, b| <$t>::from_default_unit(a.as_default_unit() / b));
        impl_operator!(Div, div, $t, $t => f64, |a, b| a.as_default_unit() / b.as_default_unit());
    };
}
