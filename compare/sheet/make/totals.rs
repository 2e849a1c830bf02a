// Lines of sheets with totals, for request Two of document 02: lengths given, shown, some of them more than once, and totals anywhere among them.
use super::expressions::{L, Name};
use super::numerals::Role;
use super::word;
use crate::random::Random;

// The lengths of one sheet.
#[derive(Clone, Copy)]
pub enum Sizes {
    // such as casings have
    Casings,
    // a few of them lead beyond the limit, or back
    Large,
    // a sum of these is the limit, or beside it
    Limit,
    Zeros,
    Mixed,
}

impl Sizes {
    pub fn any(r: &mut Random) -> Sizes {
        r.pick(&[Sizes::Casings, Sizes::Casings, Sizes::Large, Sizes::Limit, Sizes::Zeros, Sizes::Mixed])
    }

    // A number of metres.
    fn number(self, r: &mut Random) -> String {
        match self {
            Sizes::Casings if r.below(6) == 0 => format!("r{}", 8 + r.below(8)),
            Sizes::Casings => format!("{:.*}", r.pick(&[1, 1, 2, 3, 6]), r.between(0.1, 99.9)),
            Sizes::Large => {
                let x = r.between(2e7, 9e7);
                let x = r.signed(x);
                format!("{:.*}", r.pick(&[0, 0, 2, 6]), x)
            }
            Sizes::Limit => r.pick(&LIMIT).to_string(),
            Sizes::Zeros => r.pick(&["-0", "-0", "-0.0", "-000", "0", "-0.000000"]).to_string(),
            Sizes::Mixed => r.pick(&[Sizes::Casings, Sizes::Large, Sizes::Limit, Sizes::Zeros]).number(r),
        }
    }
}

const LIMIT: [&str; 14] = [
    "100000000", "100000000", "-100000000", "50000000", "50000000", "-50000000", "99999999.999999", "-99999999.999999", "50000000.000001", "0.000001", "-0.000001",
    "r8", "r9", "-0",
];

// One more line: a total, a show of a length that is known, or a new length.
pub fn line(r: &mut Random, sizes: Sizes, names: &mut Vec<Name>, sheet: &mut String) {
    let lengths: Vec<&str> = names.iter().filter(|name| name.kind == L).map(|name| name.word.as_str()).collect();
    match r.below(8) {
        0 | 1 => sheet.push_str("(total)\n"),
        2..=5 if !lengths.is_empty() => {
            let last = lengths[lengths.len() - 1];
            let word = if r.coin() { last } else { r.pick(&lengths) };
            sheet.push_str(&format!("(show {word})\n"));
        }
        _ => {
            let word = name(r, names);
            sheet.push_str(&format!("(let {word} (m {}))\n", sizes.number(r)));
            names.push(Name { word, kind: L, role: Role::Offset });
        }
    }
}

// A word not yet known, at times the line's own.
fn name(r: &mut Random, names: &[Name]) -> String {
    let taken = |word: &str| names.iter().any(|name| name.word == word);
    if r.below(5) == 0 && !taken("total") { "total".to_string() } else { word(r, &taken) }
}
