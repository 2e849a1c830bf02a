// Sheets made from a seed: of the right kinds with ordinary values or with those at limits, and sheets broken in every way.
mod aparts;
mod bounds;
mod broken;
mod earths;
mod edges;
mod expressions;
mod north;
mod numerals;
pub mod table;
mod totals;

use crate::random::Random;
use crate::sheet::{LINES, READINGS};
use crate::sheet::words::Op;
use aparts::Site;
use earths::Earth;
use expressions::{F, KINDS, Kind, Mood, Name, Rows, Writer};
use numerals::Role;
use totals::Sizes;

#[derive(Clone, Copy, PartialEq, Eq, Debug)]
pub enum Sort {
    Ordinary,
    Deep,
    Long,
    Limits,
    Readings,
    Centre,
    Ellipsoids,
    Names,
    Kinds,
    Bytes,
    Sizes,
    Table,
    Noise,
}

impl Sort {
    pub const ALL: [Sort; 13] = [
        Sort::Ordinary,
        Sort::Deep,
        Sort::Long,
        Sort::Limits,
        Sort::Readings,
        Sort::Centre,
        Sort::Ellipsoids,
        Sort::Names,
        Sort::Kinds,
        Sort::Bytes,
        Sort::Sizes,
        Sort::Table,
        Sort::Noise,
    ];

    // In a hundred.
    fn share(self) -> u64 {
        match self {
            Sort::Ordinary => 20,
            Sort::Deep | Sort::Limits | Sort::Readings => 11,
            Sort::Long | Sort::Noise => 2,
            Sort::Table => 3,
            Sort::Centre | Sort::Sizes => 6,
            Sort::Ellipsoids => 4,
            Sort::Names | Sort::Kinds | Sort::Bytes => 8,
        }
    }

    // Whether the check passes every sheet of the sort.
    pub fn is_admitted(self) -> bool {
        matches!(self, Sort::Ordinary | Sort::Deep | Sort::Long | Sort::Limits | Sort::Readings | Sort::Centre)
    }

    fn any(r: &mut Random) -> Sort {
        let mut at = r.below(Sort::ALL.iter().map(|sort| sort.share()).sum());
        for sort in Sort::ALL {
            if at < sort.share() {
                return sort;
            }
            at -= sort.share();
        }
        Sort::Noise
    }
}

pub struct Made {
    pub sort: Sort,
    pub sheet: Vec<u8>,
    pub readings: Readings,
}

// As bits.
type Readings = [u64; READINGS];

pub struct Maker {
    rows: Rows,
    // no long sheets
    short: bool,
}

const WORDS: [&str; 26] = [
    "let", "show", "ellipsoid", "wgs84", "total", "totals", "apart", "aparts", "r16", "r00", "r", "r1a", "fenu", "g", "d", "n", "abcdefghijkl", "abcdefghijkm", "abcdefghijk", "z0123456789a", "mm",
    "to0", "degg", "de", "venus", "rr0",
];

// A word that is neither known nor an operator's, as far as `taken` says.
fn word(r: &mut Random, taken: &dyn Fn(&str) -> bool) -> String {
    loop {
        let word = if r.below(6) == 0 {
            r.pick(&WORDS).to_string()
        } else {
            let length = r.pick(&[1, 1, 2, 2, 3, 5, 8, 12]);
            (0..length).map(|k| r.pick(if k == 0 { &b"abcdefghxyz"[..] } else { &b"abcmrtz01259"[..] }) as char).collect()
        };
        let reading = (0..READINGS).any(|k| word == format!("r{k}"));
        if !reading && !is_operator(&word) && !taken(&word) {
            return word;
        }
    }
}

fn is_operator(word: &str) -> bool {
    Op::ALL.iter().any(|op| op.text() == word.as_bytes())
}

impl Maker {
    pub fn new(short: bool) -> Maker {
        Maker { rows: Rows::new(), short }
    }

    pub fn make(&self, r: &mut Random) -> Made {
        let mut sort = Sort::any(r);
        if self.short && sort == Sort::Long {
            sort = Sort::Ordinary;
        }
        let mut readings = numerals::readings(r);
        let earth = if sort == Sort::Ellipsoids { Earth::any(r) } else { Earth::admitted(r) };
        let odd = match sort {
            Sort::Readings => 2,
            Sort::Limits | Sort::Centre => 4,
            _ => 64,
        };
        for reading in &mut readings {
            if r.below(odd) == 0 {
                *reading = numerals::wild(r);
            }
        }
        if sort == Sort::Centre {
            numerals::centre(r, earth.radius(), earth.squash(), &mut readings);
        }
        let sheet = match sort {
            Sort::Names => self.broken(r, &earth, &mut readings, broken::name),
            Sort::Kinds => self.broken(r, &earth, &mut readings, broken::kind),
            Sort::Bytes => self.broken(r, &earth, &mut readings, broken::byte),
            Sort::Sizes => bounds::sheet(r),
            Sort::Table => table::any(r),
            Sort::Noise => broken::noise(r),
            _ => self.admitted(r, &earth, sort, &mut readings),
        };
        Made { sort, sheet, readings }
    }

    // A sheet of the right kinds, broken once or more often.
    fn broken(&self, r: &mut Random, earth: &Earth, readings: &mut Readings, how: fn(&mut Random, &mut Vec<u8>)) -> Vec<u8> {
        let other = Earth::any(r);
        let earth = if r.below(16) == 0 { &other } else { earth };
        let mut sheet = self.admitted(r, earth, Sort::Ordinary, readings);
        let times = r.pick(&[1, 1, 1, 1, 2, 3]);
        for k in 0..times {
            let again = r.pick(&[how, broken::name, broken::kind, broken::byte]);
            (if k == 0 { how } else { again })(r, &mut sheet);
        }
        sheet
    }

    // A sheet of the right kinds; the readings are set where its collars need them.
    fn admitted(&self, r: &mut Random, earth: &Earth, sort: Sort, readings: &mut Readings) -> Vec<u8> {
        let mood = match sort {
            Sort::Limits => Mood::Turning,
            Sort::Centre => Mood::Centre,
            _ => Mood::Ordinary,
        };
        // three sheets in eight have totals, and three in eight aparts
        let sizes = if r.below(8) < 3 { Some(Sizes::any(r)) } else { None };
        let mut site = if r.below(8) < 3 { Some(Site::any(r, readings)) } else { None };
        let mut sheet = earth.line.clone();
        let mut names = Vec::new();
        let mut fresh = false;
        for _ in 1..lines(r, sort, sizes.is_some(), site.is_some()) {
            let themed = r.below(4) > 0;
            match (&mut site, sizes) {
                (Some(site), _) if themed && (sizes.is_none() || r.below(3) > 0) => site.line(r, &mut names, &mut sheet),
                (_, Some(sizes)) if themed => totals::line(r, sizes, &mut names, &mut sheet),
                // half of what is given is shown at once
                _ if (fresh && r.coin()) || r.below(6) == 0 => {
                    sheet.push_str(&show(r, &names, fresh));
                    fresh = false;
                }
                _ => {
                    let depth = if sort == Sort::Deep { 11 } else { r.pick(&[0, 1, 1, 2, 2, 3, 4, 6]) };
                    self.given(r, earth, mood, depth, &mut names, &mut sheet);
                    fresh = true;
                }
            }
        }
        if sizes.is_some() && (r.coin() || !sheet.contains("(total)")) {
            sheet.push_str("(total)\n");
        }
        if let Some(site) = site.filter(|_| r.coin() || !sheet.contains("(apart ")) {
            sheet.push_str(&site.apart(r));
        }
        sheet.into_bytes()
    }

    // A let of at most 200 bytes.
    fn given(&self, r: &mut Random, earth: &Earth, mood: Mood, depth: u32, names: &mut Vec<Name>, sheet: &mut String) {
        let word = word(r, &|word| names.iter().any(|name| name.word == word));
        let role = r.pick(&[Role::Turn, Role::Offset]);
        for turn in 0.. {
            let (kind, text) = match (mood, r.below(2)) {
                (Mood::Turning, 0) => edges::expression(r, earth),
                (Mood::Centre, 0) => edges::centre(r),
                _ => {
                    // shallower from turn to turn, and a number at last
                    let kind = if turn < 12 { kind(r) } else { 0 };
                    let mut writer = Writer { rows: &self.rows, names, mood, earth, text: String::new() };
                    writer.expression(r, kind, role, 11, depth.saturating_sub(turn / 3));
                    (kind, writer.text)
                }
            };
            let line = format!("(let {word} {text})\n");
            if line.len() <= 200 {
                sheet.push_str(&line);
                names.push(Name { word, kind, role });
                return;
            }
        }
    }
}

// How many lines there are before the last total and the last apart.
fn lines(r: &mut Random, sort: Sort, totals: bool, aparts: bool) -> u64 {
    let some = match sort {
        Sort::Long => 13 + r.below(84),
        _ => 1 + r.pick(&[0, 1, 2, 3, 4, 5, 6, 7, 8, 9, 10, 11]).min(r.below(16)),
    };
    let more = |r: &mut Random, wanted: bool, most: u64| if wanted { 2 + r.below(most) } else { 0 };
    (some + more(r, totals, 10) + more(r, aparts, 16)).min(LINES as u64 - totals as u64 - aparts as u64)
}

// Frames and vectors more often than numbers.
fn kind(r: &mut Random) -> Kind {
    if r.below(3) == 0 { F + r.below(4) as Kind } else { r.below(KINDS as u64) as Kind }
}

// The last name, or any.
fn show(r: &mut Random, names: &[Name], last: bool) -> String {
    if names.is_empty() || r.below(12) == 0 {
        return format!("(show r{})\n", r.below(READINGS as u64));
    }
    let at = if last { names.len() - 1 } else { r.below(names.len() as u64) as usize };
    format!("(show {})\n", names[at].word)
}
