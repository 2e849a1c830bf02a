// Expressions of a wanted kind, from the top down. Kinds are document 01's codes; the rows are written out here again, for the maker alone.
use super::Earth;
use super::numerals::{self, Role};
use crate::random::Random;

pub type Kind = u8;
pub const N: Kind = 0;
pub const A: Kind = 1;
pub const L: Kind = 2;
pub const G: Kind = 3;
pub const D: Kind = 4;
// and an orientation from 0 to 3
pub const V: Kind = 5;
pub const F: Kind = 9;
pub const KINDS: Kind = 13;
const BODY: Kind = 2;

// A form, with the places where it has rows: an argument's kind and what it is for.
struct Row {
    word: &'static str,
    takes: Vec<(Kind, Role)>,
    gives: Kind,
}

// The rows by the kind they give, one list for each word.
pub struct Rows([Vec<Vec<Row>>; KINDS as usize]);

impl Rows {
    pub fn new() -> Rows {
        let mut rows = Rows([const { Vec::new() }; KINDS as usize]);
        rows.positions();
        for o in 0..4 {
            rows.vectors(o);
            rows.frames(o);
        }
        rows
    }

    fn put(&mut self, word: &'static str, takes: &[(Kind, Role)], gives: Kind) {
        let row = Row { word, takes: takes.to_vec(), gives };
        let lists = &mut self.0[gives as usize];
        match lists.iter_mut().find(|list| list[0].word == word) {
            Some(list) => list.push(row),
            None => lists.push(vec![row]),
        }
    }

    fn positions(&mut self) {
        use Role::{Coordinate, Height, Latitude, Longitude, Offset, Turn};
        self.put("deg", &[(N, Turn)], A);
        self.put("m", &[(N, Offset)], L);
        self.put("geo", &[(L, Coordinate); 3], G);
        self.put("lla", &[(A, Latitude), (A, Longitude), (L, Height)], D);
        self.put("togeo", &[(D, Turn)], G);
        self.put("tolla", &[(G, Turn)], D);
        for p in [G, D] {
            let at = (p, Coordinate);
            self.put("enu", &[at], F);
            self.put("ned", &[at], F + 1);
            self.put("wan", &[(A, Turn), at], F + 3);
            self.put("body", &[(A, Turn), (A, Turn), (A, Turn), at], F + BODY);
            self.put("look", &[at, at, (A, Turn)], F + BODY);
        }
    }

    fn vectors(&mut self, o: Kind) {
        let v = (V + o, Role::Offset);
        self.put(["venu", "vned", "vbody", "vwan"][o as usize], &[(L, Role::Offset); 3], V + o);
        self.put(["aenu", "aned", "abody", "awan"][o as usize], &[(A, Role::Turn), (A, Role::Turn), (L, Role::Offset)], V + o);
        self.put("neg", &[v], V + o);
        self.put("add", &[v, v], V + o);
        self.put("sub", &[v, v], V + o);
        self.put("scale", &[v, (N, Role::Factor)], V + o);
        if o < 2 {
            self.put("swap", &[v], V + 1 - o);
        }
        self.put("bearing", &[v], A);
        self.put("elev", &[v], A);
        self.put("range", &[v], L);
    }

    fn frames(&mut self, o: Kind) {
        let (f, v, a) = ((F + o, Role::Turn), (V + o, Role::Offset), (A, Role::Turn));
        if o != BODY {
            self.put("turn", &[f, a], F + 3);
        }
        self.put("move", &[f, v, a, a, a], F + BODY);
        self.put("to", &[f, (G, Role::Coordinate)], V + o);
        self.put("at", &[f, v], G);
        self.put("origin", &[f], G);
        self.put("rz", &[f], A);
        self.put("ry", &[f], A);
        self.put("rx", &[f], A);
    }
}

// A word that was given.
pub struct Name {
    pub word: String,
    pub kind: Kind,
    pub role: Role,
}

// How the numbers of a sheet are chosen.
#[derive(Clone, Copy, PartialEq, Eq)]
pub enum Mood {
    Ordinary,
    // limits and the like among them
    Turning,
    // positions about where p + q is 0.25
    Centre,
}

pub struct Writer<'a> {
    pub rows: &'a Rows,
    pub names: &'a [Name],
    pub mood: Mood,
    pub earth: &'a Earth,
    pub text: String,
}

impl Writer<'_> {
    // Brackets that a value of the kind takes at the least.
    fn least(&self, kind: Kind) -> u32 {
        match kind {
            N => 0,
            _ if self.names.iter().any(|name| name.kind == kind) => 0,
            A | L => 1,
            _ if kind < F => 2,
            _ => 3,
        }
    }

    fn need(&self, row: &Row) -> u32 {
        1 + row.takes.iter().map(|&(kind, _)| self.least(kind)).max().unwrap_or(0)
    }

    // At most `left` brackets deep, which is enough for the kind, and about `wish` deep.
    pub fn expression(&mut self, r: &mut Random, kind: Kind, role: Role, left: u32, wish: u32) {
        if kind == N {
            return self.number(r, role);
        }
        let rows = self.rows;
        let words = &rows.0[kind as usize];
        let least = words.iter().flatten().map(|row| self.need(row)).min().unwrap_or(0);
        if (wish == 0 || left < least || r.below(12) == 0) && self.name(r, kind, role) {
            return;
        }
        let row = self.row(r, words, left, wish.max(least));
        self.text.push('(');
        self.text.push_str(row.word);
        if row.word == "geo" && left >= 2 && r.below(if self.mood == Mood::Turning { 2 } else { 8 }) > 0 {
            self.coordinates(r);
        } else {
            self.arguments(r, row, role, left, wish);
        }
        self.text.push(')');
    }

    // A row that `left` and `most` brackets suffice for; with an argument that goes deeper, for the most part.
    fn row<'b>(&self, r: &mut Random, words: &'b [Vec<Row>], left: u32, most: u32) -> &'b Row {
        loop {
            let rows = &words[r.below(words.len() as u64) as usize];
            let row = &rows[r.below(rows.len() as u64) as usize];
            let deep = most < 2 || row.takes.iter().any(|&(kind, _)| kind != N);
            if self.need(row) <= left.min(most) && (deep || r.below(8) == 0) {
                return row;
            }
        }
    }

    // One of the arguments is to be as deep as is wished.
    fn arguments(&mut self, r: &mut Random, row: &Row, role: Role, left: u32, wish: u32) {
        let spine = r.below(row.takes.len() as u64) as usize;
        for (k, &(kind, purpose)) in row.takes.iter().enumerate() {
            let wish = if k == spine { wish.saturating_sub(1) } else { r.below(2).min(wish.saturating_sub(1) as u64) as u32 };
            // deg and m hand their role down
            let purpose = if kind == N && row.gives <= L { role } else { purpose };
            self.text.push(' ');
            self.expression(r, kind, purpose, left - 1, wish);
        }
    }

    fn name(&mut self, r: &mut Random, kind: Kind, role: Role) -> bool {
        let fits = |name: &&Name| name.kind == kind && (kind != N || name.role.is_angle() == role.is_angle());
        let count = self.names.iter().filter(fits).count();
        if count == 0 {
            return false;
        }
        let name = self.names.iter().filter(fits).nth(r.below(count as u64) as usize).unwrap();
        self.text.push_str(&name.word);
        true
    }

    // A NUM, a reading or a name.
    fn number(&mut self, r: &mut Random, role: Role) {
        let what = r.below(8);
        if what == 0 && self.name(r, N, role) {
            return;
        }
        if what < 3 {
            let first = if role.is_angle() { 0 } else { 8 };
            self.text.push_str(&format!("r{}", first + r.below(8)));
        } else if self.mood == Mood::Turning && r.below(6) == 0 {
            self.text.push_str(numerals::turning(r, role));
        } else {
            let x = numerals::ordinary(r, role);
            self.text.push_str(&numerals::text(r, x));
        }
    }

    // The three of a place on the ellipsoid or above it, or about where refusal 8 begins.
    fn coordinates(&mut self, r: &mut Random) {
        if self.mood == Mood::Centre && r.below(3) > 0 {
            return self.half_way(r);
        }
        let n = numerals::direction(r);
        let out = self.earth.radius() + numerals::ordinary(r, Role::Height);
        for x in n {
            let text = numerals::text(r, x * out);
            self.text.push_str(&format!(" (m {text})"));
        }
    }

    // By the readings that `numerals::centre` sets, or to the last digit and beside it.
    fn half_way(&mut self, r: &mut Random) {
        let half = self.earth.radius() / 2.0;
        let polar = half / self.earth.squash().sqrt();
        let n = numerals::direction(r);
        let xyz = match r.below(8) {
            0 => [r.signed(half), 0.0, 0.0],
            1 => [0.0, 0.0, r.signed(polar)],
            2 => [0; 3].map(|_| r.pick(&[0.0, -0.0, 1.0])),
            3 | 4 => [n[0] * half, n[1] * half, n[2] * polar],
            5 => return self.text.push_str(" (m r11) (m r12) (m r13)"),
            _ => return self.text.push_str(" (m r8) (m r9) (m r10)"),
        };
        for x in xyz {
            let x = if r.coin() { x + r.about(2) as f64 * 1e-6 } else { x };
            self.text.push_str(&format!(" (m {x:.6})"));
        }
    }
}
