// One sheet by the library and by the interpreter: the answers, and every byte that was lent or lies beside it.
use crate::aparts::{self, Aparts};
use crate::library::{boresheet_check, boresheet_run};
use crate::make::{Made, Sort};
use crate::random::Random;
use crate::sheet::words::Op;
use crate::sheet::{LINES, OUTPUT, READINGS, check_with, run_with};
use crate::totals::{self, Totals};
use reference::request_one::met_during;
use std::fmt::{Display, Formatter, Result};
use std::slice;

const GUARD: usize = 40;

// What is lent to a call, with a guard on each side, and what should be there after it.
struct Lent<T> {
    all: Vec<T>,
    wanted: Vec<T>,
    guard: usize,
}

impl<T: Copy + PartialEq> Lent<T> {
    // A buffer of its own, so that without a guard its end is the end of what was allocated.
    fn new(content: &[T], around: &[T]) -> Lent<T> {
        let guard = around.len();
        let mut all = Vec::with_capacity(content.len() + 2 * guard);
        for part in [around, content, around] {
            all.extend_from_slice(part);
        }
        Lent { wanted: all.clone(), all, guard }
    }

    fn len(&self) -> usize {
        self.all.len() - 2 * self.guard
    }

    fn pointer(&mut self) -> *mut T {
        self.all[self.guard..].as_mut_ptr()
    }

    fn wanted(&mut self) -> &mut [T] {
        let end = self.wanted.len() - self.guard;
        &mut self.wanted[self.guard..end]
    }

    // The first place that is not as it should be, counted from the buffer's start.
    fn changed(&self) -> Option<isize> {
        if self.all == self.wanted {
            return None;
        }
        let at = self.all.iter().zip(&self.wanted).position(|(a, b)| a != b)?;
        Some(at as isize - self.guard as isize)
    }
}

#[derive(Clone, Copy, PartialEq, Eq)]
pub struct Answer {
    pub number: u32,
    pub line: u32,
    // 0 for the check
    pub written: u64,
}

pub struct Compared {
    pub made: Made,
    // of the kind list, the readings and the output
    pub lengths: [usize; 3],
    pub check: Answer,
    pub run: Answer,
    // whether the interpreter's run meets the line of request One
    pub request_one: bool,
    pub totals: Totals,
    pub aparts: Aparts,
    pub differences: Vec<String>,
}

// By operator.
pub type Counts = [u64; 35];

pub struct Beside {
    // bytes that neither a kind code nor a text holds
    pattern: Vec<u8>,
    turn: u64,
}

const RIGHT: [usize; 3] = [LINES, READINGS, OUTPUT];

impl Beside {
    pub fn new() -> Beside {
        Beside { pattern: (0..40_000u64).map(|k| 128 + (k * k / 7 % 113) as u8).collect(), turn: 0 }
    }

    // One sheet in eight is lent without guards, for a tool that watches memory; one in sixteen with wrong lengths, save those of the table.
    // `applied` and `met` are added to.
    pub fn compare(&mut self, r: &mut Random, mut made: Made, applied: &mut Counts, met: &mut Counts) -> Compared {
        self.turn += 1;
        let lengths = if made.sort != Sort::Table && r.below(16) == 0 { wrong(r, &mut made) } else { RIGHT };
        let mut differences = Vec::new();
        let check = self.check(&made, lengths[0], met, &mut differences);
        let (request_one, (run, totals, aparts)) = met_during(|| self.run(&made, lengths, applied, &mut differences));
        if made.sort.is_admitted() && lengths == RIGHT && check.number != 0 {
            differences.push("the interpreter refuses a sheet made to pass".to_string());
        }
        Compared { made, lengths, check, run, request_one, totals, aparts, differences }
    }

    fn lent<T: Copy + PartialEq>(&self, content: &[T], guard: impl Fn(u8) -> T) -> Lent<T> {
        let count = if self.turn % 8 == 0 { 0 } else { GUARD };
        let around: Vec<T> = self.pattern[..count].iter().map(|&b| guard(b)).collect();
        Lent::new(content, &around)
    }

    fn check(&self, made: &Made, length: usize, met: &mut Counts, differences: &mut Vec<String>) -> Answer {
        let mut sheet = self.lent(&made.sheet, |b| b);
        let mut kinds = self.lent(&self.pattern[..length], |b| b);
        let mut line = [0xa5a5_a5a5; 3];
        let number = unsafe { boresheet_check(sheet.pointer(), sheet.len(), kinds.pointer(), length, &mut line[1]) };
        let mut counts = [0; 35];
        let theirs = check_with(&made.sheet, kinds.wanted(), |op: Op| counts[op as usize] += 1);
        if theirs.0 == 0 {
            met.iter_mut().zip(counts).for_each(|(all, one)| *all += one);
        }
        let answer = Answer { number: theirs.0, line: theirs.1, written: 0 };
        compare_answers("check", Answer { number, line: line[1], written: 0 }, answer, differences);
        let kept = line[0] == 0xa5a5_a5a5 && line[2] == 0xa5a5_a5a5;
        note("check: beside line", (!kept).then_some(0), differences);
        note("check: sheet", sheet.changed(), differences);
        note("check: kind list", kinds.changed(), differences);
        answer
    }

    fn run(&self, made: &Made, [_, count, length]: [usize; 3], applied: &mut Counts, differences: &mut Vec<String>) -> (Answer, Totals, Aparts) {
        let mut sheet = self.lent(&made.sheet, |b| b);
        let bits: Vec<u64> = (0..count).map(|k| made.readings[k % READINGS]).collect();
        let mut readings = self.lent(&bits, |b| b as u64);
        let mut out = self.lent(&self.pattern[..length], |b| b);
        let mut line = [0xa5a5_a5a5; 3];
        let mut written = [0xa5a5_a5a5_a5a5_a5a5; 3];
        let (sheet_at, readings_at, out_at) = (sheet.pointer(), readings.pointer(), out.pointer());
        let number = unsafe {
            boresheet_run(sheet_at, sheet.len(), readings_at.cast(), count, out_at, length, &mut line[1], &mut written[1])
        };
        // as bits in memory, so that a NaN keeps its own
        let doubles = unsafe { slice::from_raw_parts(bits.as_ptr().cast::<f64>(), count) };
        let theirs = run_with(&made.sheet, doubles, out.wanted(), |op: Op| applied[op as usize] += 1);
        let answer = Answer { number: theirs.0, line: theirs.1, written: theirs.2 };
        compare_answers("run", Answer { number, line: line[1], written: written[1] }, answer, differences);
        let kept = [line[0], line[2]] == [0xa5a5_a5a5; 2] && [written[0], written[2]] == [0xa5a5_a5a5_a5a5_a5a5; 2];
        note("run: beside line and count", (!kept).then_some(0), differences);
        note("run: sheet", sheet.changed(), differences);
        note("run: readings", readings.changed(), differences);
        if let Some(at) = out.changed() {
            let text = |all: &[u8]| all[out.guard..out.guard + (theirs.2 as usize).min(length)].escape_ascii().to_string().replace("\\n", "\n      ");
            differences.push(format!("run: output from {at} on\n   Rust:\n      {}\n   Rattle:\n      {}", text(&out.wanted), text(&out.all)));
        }
        let text = &out.wanted()[..theirs.2 as usize];
        (answer, totals::of(&made.sheet, answer, text), aparts::of(&made.sheet, answer, text))
    }
}

// Lengths of every sort, most of them wrong, at times with a sheet that refusal 1 meets first.
fn wrong(r: &mut Random, made: &mut Made) -> [usize; 3] {
    match r.below(8) {
        0 => made.sheet.clear(),
        1 => made.sheet = made.sheet.iter().copied().cycle().take(16385 + r.below(3) as usize).collect(),
        _ => (),
    }
    if made.sheet.is_empty() || made.sheet.len() > 16384 {
        made.sort = Sort::Sizes;
    }
    let some = [&[0, 1, 2, 95, 97, 98, 200, 24576][..], &[0, 1, 15, 17, 32, 96], &[0, 1, 16, 96, 24575, 24577, 30000]];
    let which = 1 + r.below(7);
    [0, 1, 2].map(|k| if which >> k & 1 == 1 { r.pick(some[k]) } else { RIGHT[k] })
}

fn compare_answers(call: &str, ours: Answer, theirs: Answer, differences: &mut Vec<String>) {
    if ours != theirs {
        differences.push(format!("{call}: Rust {theirs}, Rattle {ours}"));
    }
}

fn note(what: &str, changed: Option<isize>, differences: &mut Vec<String>) {
    if let Some(at) = changed {
        differences.push(format!("{what}: wrong from place {at} on"));
    }
}

impl Display for Answer {
    fn fmt(&self, f: &mut Formatter) -> Result {
        write!(f, "{} line {} written {}", self.number, self.line, self.written)
    }
}

impl Display for Compared {
    fn fmt(&self, f: &mut Formatter) -> Result {
        writeln!(f, "   {:?}, {} bytes; kind list, readings, output: {:?}", self.made.sort, self.made.sheet.len(), self.lengths)?;
        for line in self.made.sheet.split_inclusive(|&b| b == b'\n') {
            writeln!(f, "      {}", line.escape_ascii())?;
        }
        for (k, bits) in self.made.readings.iter().enumerate() {
            write!(f, "{}r{k} {bits:016x}", if k % 4 == 0 { "\n   " } else { "  " })?;
        }
        writeln!(f)?;
        self.differences.iter().try_for_each(|difference| writeln!(f, "   {difference}"))
    }
}
