// The totals of one run, told from its sheet, its answer and its text; for the tally alone.
use crate::beside::Answer;

#[derive(Clone, Copy, Default)]
pub struct Totals {
    pub written: u64,
    // of those written, the sums of two or more lengths
    pub of_several: u64,
    // the sum that refusal 7 met, where it met one
    pub refused: u64,
}

impl Totals {
    pub fn add(&mut self, other: Totals) {
        self.written += other.written;
        self.of_several += other.of_several;
        self.refused += other.refused;
    }
}

pub fn of(sheet: &[u8], run: Answer, text: &[u8]) -> Totals {
    let mut totals = Totals::default();
    if !matches!(run.number, 0 | 7..=9) {
        return totals;
    }
    let mut lengths = 0;
    let mut written = text.split(|&b| b == b'\n');
    for (line, number) in sheet.split(|&b| b == b'\n').zip(1..) {
        let total = line == b"(total)";
        if number == run.line {
            totals.refused += total as u64;
            break;
        }
        if total {
            totals.written += 1;
            totals.of_several += (lengths >= 2) as u64;
            written.next();
        } else if line.starts_with(b"(show ") {
            lengths += written.next().is_some_and(is_length) as u64;
        }
    }
    totals
}

// Whether an output line shows a length.
fn is_length(line: &[u8]) -> bool {
    line.split(|&b| b == b' ').nth(1) == Some(b"l")
}
