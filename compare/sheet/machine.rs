// The run of an admitted sheet: values line by line, the text of its shows and totals, refusals 7, 8 and 9.
use super::reader::{Line, Sheet, Step};
use super::rows::{self, Stop};
use super::values::Value;
use super::words::Op;
use reference::ellipsoidal::Ellipsoid;
use reference::{Length, PositionVector, Vec3};

struct Machine<'a> {
    earth: Ellipsoid,
    // by place, the readings first
    known: Vec<Value>,
    stack: Vec<Value>,
    // the sum of the lengths shown so far; beyond the limit it is refused only where it is to be written
    shown: Length,
    // the geocentric positions shown so far, each name once
    collars: Vec<Collar>,
    text: Text<'a>,
}

// A position in metres, and the place of its name.
struct Collar {
    place: usize,
    metres: Vec3,
}

pub fn run(sheet: &Sheet, readings: &[f64], out: &mut [u8], mut applied: impl FnMut(Op)) -> (u32, u32, u64) {
    let earth = match sheet.ellipsoid {
        None => Ellipsoid::WGS84,
        Some((radius, inverse)) => Ellipsoid::new(Length::from_metres(radius), inverse),
    };
    let mut known = Vec::with_capacity(readings.len() + sheet.lines.len());
    known.extend(readings.iter().map(|&n| Value::Number(n)));
    let text = Text { out, written: 0 };
    let mut machine = Machine { earth, known, stack: Vec::with_capacity(16), shown: Length::ZERO, collars: Vec::new(), text };
    for (at, line) in sheet.lines.iter().enumerate() {
        if let Err(number) = machine.line(line, &sheet.steps, &mut applied) {
            return (number, at as u32 + 2, machine.text.written as u64);
        }
    }
    (0, 0, machine.text.written as u64)
}

// Refusal 7.
fn tested(value: Value) -> Result<Value, u32> {
    if value.within_limits() { Ok(value) } else { Err(7) }
}

impl Machine<'_> {
    fn line(&mut self, line: &Line, steps: &[Step], applied: &mut impl FnMut(Op)) -> Result<(), u32> {
        match line {
            Line::Let { steps: of, .. } => {
                let value = self.expression(&steps[of.clone()], applied)?;
                self.known.push(value);
            }
            Line::Show { name, place } => {
                let value = tested(self.known[*place])?;
                self.note(*place, &value);
                self.text.show(name.text(), &value);
            }
            Line::Total => self.text.show(b"total", &tested(Value::Length(self.shown))?),
            Line::Apart(least) => {
                tested(Value::Number(*least))?;
                self.apart(*least)?;
            }
        }
        Ok(())
    }

    // What later totals and aparts look back on.
    fn note(&mut self, place: usize, value: &Value) {
        match value {
            Value::Length(length) => self.shown = self.shown + *length,
            Value::Geocentric(p) if self.collars.iter().all(|collar| collar.place != place) => {
                self.collars.push(Collar { place, metres: p.as_metres() });
            }
            _ => (),
        }
    }

    // Refusal 9.
    fn apart(&self, least: f64) -> Result<(), u32> {
        for (k, one) in self.collars.iter().enumerate() {
            for other in &self.collars[..k] {
                if (one.metres - other.metres).norm() < least {
                    return Err(9);
                }
            }
        }
        Ok(())
    }

    fn expression(&mut self, steps: &[Step], applied: &mut impl FnMut(Op)) -> Result<Value, u32> {
        for step in steps {
            let value = match *step {
                Step::Number(n) => Value::Number(n),
                Step::Known(place) => self.known[place],
                Step::Apply(Some(op), count) => {
                    applied(op);
                    self.apply(op, count as usize)?
                }
                Step::Word(_) | Step::Apply(None, _) => unreachable!("the check admits no such sheet"),
            };
            self.stack.push(tested(value)?);
        }
        Ok(self.stack.pop().unwrap())
    }

    // Takes its arguments from the stack.
    fn apply(&mut self, op: Op, count: usize) -> Result<Value, u32> {
        let first = self.stack.len() - count;
        let value = match rows::apply(op, &self.stack[first..], self.earth) {
            Ok(value) => value,
            Err(Stop::Centre) => return Err(8),
            Err(Stop::Stuck) => unreachable!("the check admits no such sheet"),
        };
        self.stack.truncate(first);
        Ok(value)
    }
}

struct Text<'a> {
    out: &'a mut [u8],
    written: usize,
}

const NAN: u64 = 0x7ff8_0000_0000_0000;

impl Text<'_> {
    fn put(&mut self, bytes: &[u8]) {
        self.out[self.written..self.written + bytes.len()].copy_from_slice(bytes);
        self.written += bytes.len();
    }

    // One output line.
    fn show(&mut self, name: &[u8], value: &Value) {
        self.put(name);
        self.put(b" ");
        self.put(value.kind());
        value.fields(|x| self.put(&field(x)));
        self.put(b"\n");
    }
}

// A space and the 16 digits of the bits.
fn field(x: f64) -> [u8; 17] {
    let bits = if x.is_nan() { NAN } else { x.to_bits() };
    let mut text = [b' '; 17];
    for (k, digit) in text[1..].iter_mut().enumerate() {
        *digit = b"0123456789abcdef"[(bits >> (60 - 4 * k) & 15) as usize];
    }
    text
}
