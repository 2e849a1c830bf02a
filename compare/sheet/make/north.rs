// Bearings of vectors and looks at targets a hair west of north, about where request One of document 02 changes the answer.
use super::edges::{VECTORS, near, sign};
use super::expressions::{A, F, Kind};
use crate::random::Random;

pub fn expression(r: &mut Random) -> (Kind, String) {
    if r.coin() {
        return (A, format!("(bearing {})", vector(r)));
    }
    let (from, at) = places(r);
    let (from, at) = if r.coin() { (from, at) } else { (format!("(togeo {from})"), format!("(togeo {at})")) };
    (F + 2, format!("(look {from} {at} (deg {}))", r.about(9)))
}

fn vector(r: &mut Random) -> String {
    let o = r.below(4) as usize;
    let towards = |east: &str, north: &str, up: &str| match o {
        0 => format!("(venu (m {east}) (m {north}) (m {up}))"),
        _ => format!("({} (m {north}) (m {east}) (m {up}))", VECTORS[o]),
    };
    match r.below(3) {
        // whole and half turns, there and back
        0 => {
            let turns = r.pick(&["360", "360", "720", "180", "540", "-180"]);
            let range = format!("{}{}", sign(r), 1 + r.below(1000));
            format!("({} (deg {turns}) (deg {}) (m {range}))", ["aenu", "aned", "abody", "awan"][o], r.about(80))
        }
        // east is about -1e-12, and 2,252 metres north where it rounds away
        1 => {
            let north = r.pick(&[2251.799814, 2252.0, 10000.0, 1e8]);
            format!("(add (scale {} 0.000001) {})", towards("-0.000001", "0", "0"), towards("-0", &near(r, north), "-1"))
        }
        // tenths whose last bits do not add up to zero
        _ => {
            let (a, b) = (1 + r.below(40), 1 + r.below(40));
            let [a, b, all] = [a, b, a + b].map(|tenths| format!("{:.1}", tenths as f64 / 10.0));
            let north = r.pick(&["1", "10", "0.5", "1000"]);
            format!("(sub (sub {} {}) {})", towards(&all, north, "2"), towards(&a, "0", "0"), towards(&b, "0", "-0"))
        }
    }
}

// From a pole along the meridian whose cosine is nearly zero, or further north along any.
fn places(r: &mut Random) -> (String, String) {
    let (height, other) = (r.about(1000), r.about(1000));
    if r.coin() {
        let (pole, along, latitude) = r.pick(&[(90, -90, 1), (-90, 90, -1)]);
        let latitude = latitude * (1 + r.below(88) as i64);
        return (format!("(lla (deg {pole}) (deg {}) (m {height}))", r.about(180)), format!("(lla (deg {latitude}) (deg {along}) (m {other}))"));
    }
    let (longitude, latitude) = (r.about(180), r.about(60));
    let further = latitude + 1 + r.below(29) as i64;
    (format!("(lla (deg {latitude}) (deg {longitude}) (m {height}))"), format!("(lla (deg {further}) (deg {longitude}) (m {other}))"))
}
