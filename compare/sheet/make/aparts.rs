// Lines of sheets with aparts, for request Three of document 02: collars given, shown, some of them twice or by a second name, and aparts anywhere among them.
use super::expressions::{D, F, G, Kind, Name, V};
use super::numerals::Role;
use super::{Readings, word};
use crate::random::Random;

// In millionths of a metre, about: of what an expression rounds, nothing is known here.
type Place = [i64; 3];

const METRE: i64 = 1_000_000;

// How the collars of a sheet lie.
#[derive(Clone, Copy, PartialEq, Eq)]
enum Layout {
    // steps of whole length from a corner
    Lattice,
    // such steps one way from zero, so that every distance is whole as it is written and rounding decides
    Row,
    // a collar typed again, with one digit changed or none
    Typed,
    // at zero and at the limits
    Limits,
    // by readings that are beside the sides of 3, 4 and 5
    Readings,
    // from a frame, so that rounding decides at a whole length
    Placed,
}

// A g, or something else that lies where it might and does not count.
struct Collar {
    word: String,
    kind: Kind,
    place: Place,
    shown: bool,
}

pub struct Site {
    layout: Layout,
    corner: Place,
    step: i64,
    // of a row
    way: Place,
    // latitude, longitude and height of the frame
    fix: String,
    collars: Vec<Collar>,
}

// Their lengths are whole.
const STEPS: [Place; 12] =
    [[1, 0, 0], [0, 0, 0], [3, 4, 0], [0, 5, 12], [1, 2, 2], [2, 3, 6], [4, 4, 7], [6, 6, 7], [1, 4, 8], [8, 15, 0], [2, 6, 9], [2, 10, 11]];
const LAYOUTS: [Layout; 9] =
    [Layout::Lattice, Layout::Lattice, Layout::Row, Layout::Row, Layout::Row, Layout::Typed, Layout::Limits, Layout::Readings, Layout::Placed];
const EDGES: [i64; 9] = [0, 0, 100_000_000, -100_000_000, 50_000_000, -50_000_000, 60_000_000, 80_000_000, 57_735_027];
// Sides in steps, by reading from r8 on.
const SIDES: [i64; 6] = [3, 4, 5, -3, -4, -5];

const LEAST: [&str; 7] = ["0.000001", "100000000", "99999999.999999", "100000000.000001", "100000001", "999999999.999999", "000000000.000000"];

impl Site {
    pub fn any(r: &mut Random, readings: &mut Readings) -> Site {
        let layout = r.pick(&LAYOUTS);
        let far = if layout == Layout::Readings || r.coin() { 0 } else { r.pick(&[1000, 7_000_000]) };
        let least = if layout == Layout::Row { r.pick(&[10, 100, 1000, METRE]) } else { r.pick(&[1, 1, 1, 10, 100, 1000, METRE]) };
        let step = METRE / least * r.pick(&[1, 3, 7, 11, 13, 37]);
        if layout == Layout::Readings {
            for (k, side) in SIDES.into_iter().enumerate() {
                readings[8 + k] = r.beside(metres(side * step)).to_bits();
            }
        }
        let corner = [0; 3].map(|_| r.about(far) * METRE);
        let fix = format!("(lla (deg {}) (deg {}) (m {}))", r.about(89), r.about(179), r.about(900));
        let mut site = Site { layout, corner, step, way: [0; 3], fix, collars: Vec::new() };
        // along no axis and in no plane of two, for the most part: then the order of the squares counts
        let ways = [0; 3].map(|_| site.any_step(r));
        site.way = ways.into_iter().find(|way| !way.contains(&0)).unwrap_or(ways[0]);
        site
    }

    // One more line: an apart, a show of a collar, a collar by a second name, or a new one.
    pub fn line(&mut self, r: &mut Random, names: &mut Vec<Name>, sheet: &mut String) {
        match r.below(10) {
            0 | 1 if self.shown().len() >= 2 || r.below(6) == 0 => sheet.push_str(&self.apart(r)),
            0..=5 if !self.collars.is_empty() => self.show(r, sheet),
            6 if !self.collars.is_empty() => {
                let Collar { word, kind, place, .. } = &self.collars[r.below(self.collars.len() as u64) as usize];
                let (kind, place, text) = (*kind, *place, word.clone());
                self.give(r, kind, place, &text, names, sheet);
            }
            7 if self.layout == Layout::Placed || r.coin() => {
                let (kind, place, text) = self.other(r);
                self.give(r, kind, place, &text, names, sheet);
            }
            _ => {
                let (place, text) = self.collar(r);
                self.give(r, G, place, &text, names, sheet);
            }
        }
    }

    // What lies where a collar does and is no g.
    fn other(&self, r: &mut Random) -> (Kind, Place, String) {
        let fix = &self.fix;
        match r.below(3) {
            0 if self.layout == Layout::Placed => (F, [0; 3], format!("(enu {fix})")),
            1 if self.layout == Layout::Placed => (D, [0; 3], fix.clone()),
            _ => {
                let place = self.collars.last().map_or(self.corner, |collar| collar.place);
                (V, place, geo(r, place).replace("geo", "venu"))
            }
        }
    }

    fn give(&mut self, r: &mut Random, kind: Kind, place: Place, text: &str, names: &mut Vec<Name>, sheet: &mut String) {
        let taken = |word: &str| names.iter().any(|name| name.word == word);
        let word = if r.below(12) == 0 && !taken("apart") { "apart".to_string() } else { word(r, &taken) };
        sheet.push_str(&format!("(let {word} {text})\n"));
        names.push(Name { word: word.clone(), kind, role: Role::Coordinate });
        self.collars.push(Collar { word, kind, place, shown: false });
    }

    // One that was not shown yet, for the most part.
    fn show(&mut self, r: &mut Random, sheet: &mut String) {
        let hidden: Vec<usize> = (0..self.collars.len()).filter(|&k| !self.collars[k].shown).collect();
        let at = if hidden.is_empty() || r.below(6) == 0 { r.below(self.collars.len() as u64) as usize } else { r.pick(&hidden) };
        self.collars[at].shown = true;
        sheet.push_str(&format!("(show {})\n", self.collars[at].word));
    }

    // The first stands at the corner or at the frame's origin.
    fn collar(&self, r: &mut Random) -> (Place, String) {
        let step = if self.collars.is_empty() { [0; 3] } else { self.any_step(r) };
        match self.layout {
            Layout::Placed => (step, self.placed(r, step)),
            Layout::Readings => self.read(r),
            Layout::Row => {
                let place = self.way.map(|x| x * self.collars.len() as i64);
                (place, geo(r, place))
            }
            Layout::Typed if !self.collars.is_empty() => {
                let mut place = self.collars[r.below(self.collars.len() as u64) as usize].place;
                place[r.below(3) as usize] += r.pick(&[0, 1, -1, 10]) * self.step;
                (place, geo(r, place))
            }
            Layout::Limits => {
                let place = [0; 3].map(|_| r.pick(&EDGES) * METRE + r.pick(&[0, 0, 0, 0, 0, 1]));
                let place = place.map(|x| x.min(100 * METRE * METRE));
                (place, geo(r, place))
            }
            _ => {
                let place = [0, 1, 2].map(|k| self.corner[k] + step[k]);
                (place, geo(r, place))
            }
        }
    }

    // In any direction.
    fn any_step(&self, r: &mut Random) -> Place {
        let (step, times, turn) = (r.pick(&STEPS), r.pick(&[1, 1, 1, 2, 3]), r.below(3) as usize);
        [0, 1, 2].map(|k| step[(k + turn) % 3] * times * self.step * r.pick(&[1, -1]))
    }

    fn placed(&self, r: &mut Random, [east, north, up]: Place) -> String {
        let fix = &self.fix;
        if [east, north, up] == [0; 3] && r.coin() {
            return format!("(togeo {fix})");
        }
        let [x, y, z, down] = [east, north, up, -up].map(|x| number(r, x));
        match r.below(3) {
            0 => format!("(at (ned {fix}) (vned (m {y}) (m {x}) (m {down})))"),
            _ => format!("(at (enu {fix}) (venu (m {x}) (m {y}) (m {z})))"),
        }
    }

    // Zero, one side along an axis, or two.
    fn read(&self, r: &mut Random) -> (Place, String) {
        let mut place = [0; 3];
        let mut texts = [0; 3].map(|_| r.pick(&["0", "-0"]).to_string());
        let (first, turn) = (r.below(3) as usize, 3 * r.below(2) as usize);
        let sides = r.pick(&[&[][..], &[2], &[2], &[0, 1], &[1, 0], &[0, 4]]);
        for (k, side) in sides.iter().enumerate() {
            let (at, side) = ((first + k) % 3, (side + turn) % 6);
            place[at] = SIDES[side] * self.step;
            texts[at] = format!("r{}", 8 + side);
        }
        (place, format!("(geo (m {}) (m {}) (m {}))", texts[0], texts[1], texts[2]))
    }

    // Where those that count are.
    fn shown(&self) -> Vec<Place> {
        self.collars.iter().filter(|collar| collar.shown && collar.kind == G).map(|collar| collar.place).collect()
    }

    // The distances between them, the least first.
    fn between(&self) -> Vec<i64> {
        let shown = self.shown();
        let mut between = Vec::new();
        for (k, &one) in shown.iter().enumerate() {
            between.extend(shown[..k].iter().map(|&other| distance(one, other)));
        }
        between.sort();
        between
    }

    pub fn apart(&self, r: &mut Random) -> String {
        format!("(apart {})\n", self.least(r))
    }

    // A distance between two of those shown or beside it, the least for the most part; or one that has nothing to do with them.
    fn least(&self, r: &mut Random) -> String {
        let between = self.between();
        let any = if between.is_empty() { 5 * self.step } else { r.pick(&between) };
        let closest = between.first().copied().unwrap_or(any);
        let micro = match r.below(14) {
            0..=5 => closest,
            6 => closest + 1,
            7 => closest - 1,
            8 => any,
            9 => closest + self.step,
            10 => closest / 2,
            11 => 0,
            12 => 5 * self.step,
            _ => return r.pick(&LEAST).to_string(),
        };
        number(r, micro.max(0))
    }
}

fn metres(micro: i64) -> f64 {
    micro as f64 / METRE as f64
}

// Down to a whole millionth.
fn distance(one: Place, other: Place) -> i64 {
    let squares = [0, 1, 2].map(|k| ((one[k] - other[k]) as i128).pow(2));
    squares.iter().sum::<i128>().isqrt() as i64
}

// As a sheet writes it, at times with more zeros than it needs.
fn number(r: &mut Random, micro: i64) -> String {
    let sign = if micro < 0 { "-" } else { "" };
    let text = format!("{sign}{}.{:06}", micro.abs() / METRE, micro.abs() % METRE);
    if r.below(8) == 0 { text } else { text.trim_end_matches('0').trim_end_matches('.').to_string() }
}

fn geo(r: &mut Random, place: Place) -> String {
    let texts = place.map(|x| if x == 0 && r.coin() { "-0".to_string() } else { number(r, x) });
    format!("(geo (m {}) (m {}) (m {}))", texts[0], texts[1], texts[2])
}
