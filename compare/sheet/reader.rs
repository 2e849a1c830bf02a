// Bytes to lines: refusal 3. An expression becomes steps in the machine's order, arguments from left to right, each before its operator.
use super::words::{Op, Word};
use super::{LINES, Refusal, refused};
use std::ops::Range;

const LONGEST_LINE: usize = 200;
// Brackets within the line's own.
const DEPTH: u32 = 11;
const ARGUMENTS: u8 = 5;

#[derive(Clone, Copy)]
pub enum Step {
    Number(f64),
    // as the reader leaves it, and as the place of a known word
    Word(Word),
    Known(usize),
    // None is a word that opens no row
    Apply(Option<Op>, u8),
}

pub enum Line {
    Let { name: Word, steps: Range<usize> },
    // the place is found by the check
    Show { name: Word, place: usize },
    Total,
    Apart(f64),
}

pub struct Sheet {
    // radius and inverse flattening, None for wgs84
    pub ellipsoid: Option<(f64, f64)>,
    // from line 2 on
    pub lines: Vec<Line>,
    pub steps: Vec<Step>,
}

pub fn read(sheet: &[u8]) -> Result<Sheet, Refusal> {
    let (first, mut rest) = cut(sheet).ok_or(Refusal { number: 3, line: 1 })?;
    let mut read = match Reader(first).ellipsoid() {
        Some(ellipsoid) => Sheet { ellipsoid, lines: Vec::new(), steps: Vec::new() },
        None => return refused(3, 1),
    };
    let mut number = 1;
    while !rest.is_empty() {
        number += 1;
        let line = if number <= LINES { cut(rest) } else { None };
        match line.and_then(|(line, after)| Some((Reader(line).line(&mut read.steps)?, after))) {
            Some((line, after)) => {
                read.lines.push(line);
                rest = after;
            }
            None => return refused(3, number as u32),
        }
    }
    Ok(read)
}

// The first line without its LF, and what follows; None where the line is too long or has no end.
fn cut(sheet: &[u8]) -> Option<(&[u8], &[u8])> {
    let end = sheet.iter().take(LONGEST_LINE).position(|&b| b == b'\n')?;
    Some((&sheet[..end], &sheet[end + 1..]))
}

// What is left of a line. Each method takes what it reads from the front.
struct Reader<'a>(&'a [u8]);

impl<'a> Reader<'a> {
    fn take(&mut self, text: &[u8]) -> Option<()> {
        self.0 = self.0.strip_prefix(text)?;
        Some(())
    }

    fn end(&self) -> Option<()> {
        self.0.is_empty().then_some(())
    }

    fn split(&mut self, at: usize) -> &'a [u8] {
        let (taken, left) = self.0.split_at(at);
        self.0 = left;
        taken
    }

    fn ellipsoid(&mut self) -> Option<Option<(f64, f64)>> {
        self.take(b"(ellipsoid ")?;
        let ellipsoid = if self.take(b"wgs84").is_some() {
            None
        } else {
            let radius = self.number()?;
            self.take(b" ")?;
            Some((radius, self.number()?))
        };
        self.take(b")")?;
        self.end()?;
        Some(ellipsoid)
    }

    fn line(&mut self, steps: &mut Vec<Step>) -> Option<Line> {
        let line = if self.take(b"(let ").is_some() {
            let name = self.word()?;
            self.take(b" ")?;
            let first = steps.len();
            self.expression(DEPTH, steps)?;
            Line::Let { name, steps: first..steps.len() }
        } else if self.take(b"(show ").is_some() {
            Line::Show { name: self.word()?, place: 0 }
        } else if self.take(b"(apart ").is_some() {
            Line::Apart(self.distance()?)
        } else {
            self.take(b"(total")?;
            Line::Total
        };
        self.take(b")")?;
        self.end()?;
        Some(line)
    }

    fn expression(&mut self, left: u32, steps: &mut Vec<Step>) -> Option<()> {
        match *self.0.first()? {
            b'(' => return self.bracket(left.checked_sub(1)?, steps),
            b'a'..=b'z' => steps.push(Step::Word(self.word()?)),
            _ => steps.push(Step::Number(self.number()?)),
        }
        Some(())
    }

    // `left` brackets may stand within this one.
    fn bracket(&mut self, left: u32, steps: &mut Vec<Step>) -> Option<()> {
        self.take(b"(")?;
        let op = Op::of(self.word()?);
        let mut count = 0;
        while self.take(b" ").is_some() {
            count += 1;
            if count > ARGUMENTS {
                return None;
            }
            self.expression(left, steps)?;
        }
        self.take(b")")?;
        steps.push(Step::Apply(op, count));
        Some(())
    }

    fn word(&mut self) -> Option<Word> {
        if !self.0.first()?.is_ascii_lowercase() {
            return None;
        }
        let length = self.0.iter().take_while(|b| b.is_ascii_lowercase() || b.is_ascii_digit()).count();
        Word::of(self.split(length))
    }

    // A NUM without a minus.
    fn distance(&mut self) -> Option<f64> {
        if self.0.starts_with(b"-") { None } else { self.number() }
    }

    fn number(&mut self) -> Option<f64> {
        let minus = self.0.starts_with(b"-") as usize;
        let mut length = minus + digits(&self.0[minus..], 9)?;
        if self.0.get(length) == Some(&b'.') {
            length += 1 + digits(&self.0[length + 1..], 6)?;
        }
        // Rust's own reading is the nearest double, ties to even
        std::str::from_utf8(self.split(length)).ok()?.parse().ok()
    }
}

// How many digits stand in front, 1 to `most`.
fn digits(text: &[u8], most: usize) -> Option<usize> {
    let count = text.iter().take_while(|b| b.is_ascii_digit()).count();
    (1..=most).contains(&count).then_some(count)
}
