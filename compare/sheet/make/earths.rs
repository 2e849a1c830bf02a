// The first line of a sheet.
use crate::random::Random;
use reference::Length;
use reference::ellipsoidal::Ellipsoid;

// Line 1 and what it says.
pub struct Earth {
    pub line: String,
    pub ellipsoid: Ellipsoid,
}

impl Earth {
    fn of(radius: &str, inverse: &str) -> Earth {
        let ellipsoid = Ellipsoid::new(Length::from_metres(radius.parse().unwrap()), inverse.parse().unwrap());
        Earth { line: format!("(ellipsoid {radius} {inverse})\n"), ellipsoid }
    }

    pub fn admitted(r: &mut Random) -> Earth {
        match r.below(8) {
            0..=3 => Earth { line: "(ellipsoid wgs84)\n".to_string(), ellipsoid: Ellipsoid::WGS84 },
            4 => Earth::of("6400000", "128"),
            5 => Earth::of(r.pick(&["1000000", "10000000", "6378137"]), r.pick(&["100", "1000", "298.257222"])),
            _ => {
                let radius = r.between(1e6, 1e7);
                let inverse = r.between(100.0, 1000.0);
                Earth::of(&format!("{radius:.6}"), &format!("{inverse:.6}"))
            }
        }
    }

    // The ranges' ends and their neighbours.
    pub fn any(r: &mut Random) -> Earth {
        let radii = ["999999.999999", "1000000", "1000000.000001", "10000000", "10000000.000001", "9999999.999999", "6378137", "0", "-0", "-6378137", "000000001"];
        let inverses = ["99.999999", "100", "100.000001", "1000", "1000.000001", "999.999999", "298.257223", "0", "-298", "999999999.999999", "298"];
        // one of the two lies within, for the most part
        let k = r.below(5);
        let radius = if k < 2 { "6378137" } else { r.pick(&radii) };
        let inverse = if k == 3 { "298.257223" } else { r.pick(&inverses) };
        Earth::of(radius, inverse)
    }

    pub fn radius(&self) -> f64 {
        self.ellipsoid.equatorial_radius.metres
    }

    // What q has and p has not.
    pub fn squash(&self) -> f64 {
        1.0 - self.ellipsoid.eccentricity * self.ellipsoid.eccentricity
    }
}
