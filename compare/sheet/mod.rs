// A second implementation of bore sheets, for comparison: documents 01 and 02 over the published Rust, sharing nothing with the library.
mod kinds;
mod machine;
mod reader;
mod rows;
mod values;
pub mod words;

use reader::Sheet;
use words::Op;

const BYTES: usize = 16_384;
pub const LINES: usize = 96;
pub const READINGS: usize = 16;
pub const OUTPUT: usize = 24_576;

// Number and line, as answered.
#[derive(Clone, Copy)]
struct Refusal {
    number: u32,
    line: u32,
}

fn refused<T>(number: u32, line: u32) -> Result<T, Refusal> {
    Err(Refusal { number, line })
}

// Refusal 1 comes before refusal 2, and both before the sheet is read.
fn sizes(sheet: &[u8], lent: bool) -> Result<(), Refusal> {
    if sheet.is_empty() || sheet.len() > BYTES {
        refused(1, 0)
    } else if !lent {
        refused(2, 0)
    } else {
        Ok(())
    }
}

// Refusals 3 to 6. Each line's kind code goes to `code` with the line's place; the names in the sheet become places.
fn admit(sheet: &[u8], code: impl FnMut(usize, u8), met: impl FnMut(Op)) -> Result<Sheet, Refusal> {
    let mut sheet = reader::read(sheet)?;
    kinds::ellipsoid(&sheet)?;
    kinds::walk(&mut sheet, code, met)?;
    Ok(sheet)
}

// The answer's number and line. A passing check fills `kinds` as far as the sheet has lines.
pub fn check(sheet: &[u8], kinds: &mut [u8]) -> (u32, u32) {
    check_with(sheet, kinds, |_| ())
}

// As `check`; `met` hears of each operator whose row is found, also in a sheet refused further on.
pub fn check_with(sheet: &[u8], kinds: &mut [u8], met: impl FnMut(Op)) -> (u32, u32) {
    let mut codes = [0; LINES];
    let checked = sizes(sheet, kinds.len() == LINES).and_then(|()| admit(sheet, |at, code| codes[at] = code, met));
    match checked {
        Ok(sheet) => {
            let lines = 1 + sheet.lines.len();
            kinds[..lines].copy_from_slice(&codes[..lines]);
            (0, 0)
        }
        Err(refusal) => (refusal.number, refusal.line),
    }
}

// The answer's number, line and count of bytes written to `out`.
pub fn run(sheet: &[u8], readings: &[f64], out: &mut [u8]) -> (u32, u32, u64) {
    run_with(sheet, readings, out, |_| ())
}

// As `run`; `applied` hears of each operator whose row is applied.
pub fn run_with(sheet: &[u8], readings: &[f64], out: &mut [u8], applied: impl FnMut(Op)) -> (u32, u32, u64) {
    let lent = readings.len() == READINGS && out.len() == OUTPUT;
    match sizes(sheet, lent).and_then(|()| admit(sheet, |_, _| (), |_| ())) {
        Ok(sheet) => machine::run(&sheet, readings, out, applied),
        Err(refusal) => (refusal.number, refusal.line, 0),
    }
}
