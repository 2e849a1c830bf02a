// The aparts of one run, told from its sheet, its answer and its text; for the tally alone.
use crate::beside::Answer;
use std::collections::BTreeMap;

#[derive(Clone, Copy, Default)]
pub struct Aparts {
    pub passed: u64,
    // of those passed, the ones over two or more names
    pub over_pairs: u64,
    // and the ones with two names exactly as far apart as they must be
    pub at_least: u64,
    // refused 9, and 7
    pub broken: u64,
    pub beyond: u64,
}

impl Aparts {
    pub fn add(&mut self, other: Aparts) {
        self.passed += other.passed;
        self.over_pairs += other.over_pairs;
        self.at_least += other.at_least;
        self.broken += other.broken;
        self.beyond += other.beyond;
    }

    pub fn is_any(&self) -> bool {
        self.passed + self.broken + self.beyond > 0
    }
}

// By name, in metres.
type Collars<'a> = BTreeMap<&'a [u8], [f64; 3]>;

pub fn of(sheet: &[u8], run: Answer, text: &[u8]) -> Aparts {
    let mut aparts = Aparts::default();
    if !matches!(run.number, 0 | 7..=9) {
        return aparts;
    }
    let mut collars = Collars::new();
    let mut written = text.split(|&b| b == b'\n');
    for (line, number) in sheet.split(|&b| b == b'\n').zip(1..) {
        let least = line.strip_prefix(b"(apart ");
        if number == run.line {
            aparts.broken += (run.number == 9) as u64;
            aparts.beyond += (least.is_some() && run.number == 7) as u64;
            break;
        }
        if let Some(least) = least {
            aparts.passed += 1;
            aparts.over_pairs += (collars.len() >= 2) as u64;
            aparts.at_least += is_met(&collars, least) as u64;
        } else if line.starts_with(b"(show ") || line == b"(total)" {
            collars.extend(written.next().and_then(collar));
        }
    }
    aparts
}

// Whether two are as far apart as an apart's number and bracket say.
fn is_met(collars: &Collars, least: &[u8]) -> bool {
    let least: f64 = String::from_utf8_lossy(least).trim_end_matches(')').parse().unwrap();
    let far = |[a, b, c]: [f64; 3], [x, y, z]: [f64; 3]| ((a - x) * (a - x) + (b - y) * (b - y) + (c - z) * (c - z)).sqrt();
    let all: Vec<[f64; 3]> = collars.values().copied().collect();
    all.iter().enumerate().any(|(k, one)| all[..k].iter().any(|other| far(*one, *other) == least))
}

// The name and the position of an output line that shows one.
fn collar(line: &[u8]) -> Option<(&[u8], [f64; 3])> {
    let parts: Vec<&[u8]> = line.split(|&b| b == b' ').collect();
    let [name, b"g", x, y, z] = parts[..] else { return None };
    Some((name, [x, y, z].map(|digits| f64::from_bits(u64::from_str_radix(&String::from_utf8_lossy(digits), 16).unwrap()))))
}
