//! What the published files lean on and lack, and document 01's functions under names of their own.

use crate::ground;

/// Sine, cosine and atan2 of document 01 as methods; the build script puts in these names.
pub trait Ground {
    fn ground_sin(self) -> Self;
    fn ground_cos(self) -> Self;
    fn ground_atan2(self, x: Self) -> Self;
}

impl Ground for f64 {
    fn ground_sin(self) -> f64 {
        ground::sin(self)
    }

    fn ground_cos(self) -> f64 {
        ground::cos(self)
    }

    fn ground_atan2(self, x: f64) -> f64 {
        ground::atan2(self, x)
    }
}

/// A quantity that is one number in its default unit.
pub trait Measurement {
    fn from_default_unit(amount: f64) -> Self;
    fn as_default_unit(&self) -> f64;
}

/// The operators of a quantity: one float operation each, in the default unit.
macro_rules! impl_measurement {
    ($type:ty) => {
        impl_measurement! { @sum $type: Add add +, Sub sub - }
        impl_measurement! { @scaled $type: Mul mul *, Div div / }

        impl ::std::ops::Mul<$type> for f64 {
            type Output = $type;

            fn mul(self, amount: $type) -> $type {
                <$type>::from_default_unit(self * amount.as_default_unit())
            }
        }

        impl ::std::ops::Neg for $type {
            type Output = $type;

            fn neg(self) -> $type {
                <$type>::from_default_unit(-self.as_default_unit())
            }
        }
    };
    (@sum $type:ty: $($trait:ident $name:ident $operator:tt),+) => {
        $(impl ::std::ops::$trait for $type {
            type Output = $type;

            fn $name(self, other: $type) -> $type {
                <$type>::from_default_unit(self.as_default_unit() $operator other.as_default_unit())
            }
        })+
    };
    (@scaled $type:ty: $($trait:ident $name:ident $operator:tt),+) => {
        $(impl ::std::ops::$trait<f64> for $type {
            type Output = $type;

            fn $name(self, factor: f64) -> $type {
                <$type>::from_default_unit(self.as_default_unit() $operator factor)
            }
        })+
    };
}

pub mod surface {
    use crate::jord::{GeocentricPosition, GeodeticPosition};

    /// A body's surface; the sphere implements it and nothing here calls it.
    pub trait Surface {
        fn geodetic_to_geocentric_position(&self, pos: GeodeticPosition) -> GeocentricPosition;
        fn geocentric_to_geodetic_position(&self, pos: GeocentricPosition) -> GeodeticPosition;
    }
}
