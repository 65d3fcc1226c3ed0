//! The original, as the build script transforms it, with the two files that list its modules
//! written anew: the library's root, and `spherical`.

#[macro_use]
pub mod shim;
pub mod watch;

macro_rules! published {
    ($folder:literal: $($name:ident)+) => {
        $(pub mod $name {
            include!(concat!(env!("OUT_DIR"), "/jord/", $folder, stringify!($name), ".rs"));
        })+
    };
}

published! { "": numbers angle length speed vec3 mat33 positions vehicle }

pub mod spherical {
    published! { "spherical/": base great_circle minor_arc sphere }
    // The second and the third copy of sphere.rs.
    published! { "spherical/": watched before }

    pub use base::Side;
    pub use great_circle::GreatCircle;
    pub use minor_arc::MinorArc;
    pub use sphere::Sphere;
}

pub use angle::Angle;
pub use length::Length;
pub use mat33::Mat33;
pub use positions::{GeocentricPosition, GeodeticPosition, LatLong, NVector, PositionVector};
pub use shim::{Measurement, surface};
pub use speed::Speed;
pub use vec3::Vec3;
pub use vehicle::Vehicle;
