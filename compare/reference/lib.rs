// The Rust that is compared: the published files, after the edit that `compare/build` makes, over the stand-ins.
#![allow(dead_code, unused_imports, unexpected_cfgs)]

pub mod request_one;
pub mod standins;
#[macro_use]
mod measurement;

// A published file as a module of the crate, with the stand-ins in sight.
macro_rules! published {
    ($($name:ident: $file:literal)*) => {
        $(pub mod $name {
            use crate::standins::Standins;
            include!($file);
        })*
    };
}

published! {
    angle: "published/angle.rs"
    length: "published/length.rs"
    mat33: "published/mat33.rs"
    numbers: "published/numbers.rs"
    positions: "published/positions.rs"
    surface: "published/surface.rs"
    vec3: "published/vec3.rs"
}

pub mod ellipsoidal {
    published! {
        ellipsoid: "published/ellipsoidal/ellipsoid.rs"
    }

    pub use ellipsoid::Ellipsoid;
}

pub mod local {
    published! {
        frame: "published/local/frame.rs"
        orientation: "published/local/orientation.rs"
        vector: "published/local/vector.rs"
    }

    pub use frame::*;
    pub use orientation::*;
    pub use vector::*;
}

pub use angle::Angle;
pub use length::Length;
pub use mat33::Mat33;
pub use measurement::Measurement;
pub use positions::{GeocentricPosition, GeodeticPosition, LatLong, NVector, PositionVector};
pub use standins::Standins;
pub use surface::Surface;
pub use vec3::Vec3;
