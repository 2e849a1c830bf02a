// Kinds, their table, and the check's walk: refusals 4, 5 and 6.
use super::reader::{Line, Sheet, Step};
use super::words::{Op, Word};
use super::{READINGS, Refusal, refused};

#[derive(Clone, Copy, PartialEq, Eq)]
pub enum Orientation {
    Enu,
    Ned,
    Body,
    Wan,
}

#[derive(Clone, Copy, PartialEq, Eq)]
pub enum Kind {
    N,
    A,
    L,
    G,
    D,
    V(Orientation),
    F(Orientation),
}

use Kind::{A, D, F, G, L, N, V};
use Orientation::{Body, Enu, Ned, Wan};

impl Kind {
    fn code(self) -> u8 {
        match self {
            N => 0,
            A => 1,
            L => 2,
            G => 3,
            D => 4,
            V(o) => 5 + o as u8,
            F(o) => 9 + o as u8,
        }
    }
}

// The kind of the row that fits, None where there is none.
fn row(op: Op, arguments: &[Kind]) -> Option<Kind> {
    Some(match (op, arguments) {
        (Op::Deg, [N]) => A,
        (Op::M, [N]) => L,
        (Op::Geo, [L, L, L]) => G,
        (Op::Lla, [A, A, L]) => D,
        (Op::Togeo, [D]) => G,
        (Op::Tolla, [G]) => D,
        (Op::Venu, [L, L, L]) | (Op::Aenu, [A, A, L]) => V(Enu),
        (Op::Vned, [L, L, L]) | (Op::Aned, [A, A, L]) => V(Ned),
        (Op::Vbody, [L, L, L]) | (Op::Abody, [A, A, L]) => V(Body),
        (Op::Vwan, [L, L, L]) | (Op::Awan, [A, A, L]) => V(Wan),
        (Op::Enu, [G | D]) => F(Enu),
        (Op::Ned, [G | D]) => F(Ned),
        (Op::Wan, [A, G | D]) => F(Wan),
        (Op::Body, [A, A, A, G | D]) => F(Body),
        (Op::Look, [G, G, A] | [D, D, A]) => F(Body),
        (Op::Turn, [F(Enu | Ned | Wan), A]) => F(Wan),
        (Op::Move, [F(f), V(v), A, A, A]) if f == v => F(Body),
        (Op::To, [F(o), G]) => V(*o),
        (Op::At, [F(f), V(v)]) if f == v => G,
        (Op::Neg, [V(o)]) => V(*o),
        (Op::Add | Op::Sub, [V(v), V(w)]) if v == w => V(*v),
        (Op::Scale, [V(o), N]) => V(*o),
        (Op::Swap, [V(Enu)]) => V(Ned),
        (Op::Swap, [V(Ned)]) => V(Enu),
        (Op::Bearing | Op::Elev, [V(_)]) => A,
        (Op::Range, [V(_)]) => L,
        (Op::Origin, [F(_)]) => G,
        (Op::Rz | Op::Ry | Op::Rx, [F(_)]) => A,
        _ => return None,
    })
}

pub fn ellipsoid(sheet: &Sheet) -> Result<(), Refusal> {
    match sheet.ellipsoid {
        Some((radius, inverse)) if !(1e6..=1e7).contains(&radius) || !(100.0..=1000.0).contains(&inverse) => refused(4, 1),
        _ => Ok(()),
    }
}

const READING_WORDS: [&[u8]; READINGS] = [
    b"r0", b"r1", b"r2", b"r3", b"r4", b"r5", b"r6", b"r7", b"r8", b"r9", b"r10", b"r11", b"r12", b"r13", b"r14", b"r15",
];

// The known words and their kinds, the readings first; a word's place is the same in the run.
struct Known {
    words: Vec<Word>,
    kinds: Vec<Kind>,
}

impl Known {
    fn readings() -> Known {
        let words = READING_WORDS.iter().filter_map(|text| Word::of(text)).collect();
        Known { words, kinds: vec![N; READINGS] }
    }

    fn place(&self, word: Word) -> Option<usize> {
        self.words.iter().position(|&known| known == word)
    }

    fn give(&mut self, word: Word, kind: Kind) -> Result<(), u32> {
        if Op::of(word).is_some() || self.place(word).is_some() {
            return Err(5);
        }
        self.words.push(word);
        self.kinds.push(kind);
        Ok(())
    }
}

// The kind of an expression, or the number of its refusal. `stack` is empty before and after.
fn expression(steps: &mut [Step], known: &Known, stack: &mut Vec<Kind>, met: &mut impl FnMut(Op)) -> Result<Kind, u32> {
    for step in steps {
        let kind = match *step {
            Step::Number(_) => N,
            Step::Word(word) => {
                let place = known.place(word).ok_or(5u32)?;
                *step = Step::Known(place);
                known.kinds[place]
            }
            Step::Known(place) => known.kinds[place],
            Step::Apply(op, count) => {
                let first = stack.len() - count as usize;
                let op = op.ok_or(6u32)?;
                let kind = row(op, &stack[first..]).ok_or(6u32)?;
                met(op);
                stack.truncate(first);
                kind
            }
        };
        stack.push(kind);
    }
    Ok(stack.pop().unwrap())
}

const ELLIPSOID: u8 = 255;
const APART: u8 = 254;

// Refusals 5 and 6, in the machine's order.
pub fn walk(sheet: &mut Sheet, mut code: impl FnMut(usize, u8), mut met: impl FnMut(Op)) -> Result<(), Refusal> {
    let mut known = Known::readings();
    let mut stack = Vec::new();
    code(0, ELLIPSOID);
    for (at, line) in sheet.lines.iter_mut().enumerate() {
        let found = match line {
            Line::Let { name, steps } => expression(&mut sheet.steps[steps.clone()], &known, &mut stack, &mut met)
                .and_then(|kind| known.give(*name, kind).map(|()| kind.code())),
            Line::Show { name, place } => known.place(*name).ok_or(5).map(|found| {
                *place = found;
                known.kinds[found].code()
            }),
            Line::Total => Ok(L.code()),
            Line::Apart(_) => Ok(APART),
        };
        match found {
            Ok(found) => code(at + 1, found),
            Err(number) => return refused(number, at as u32 + 2),
        }
    }
    Ok(())
}
