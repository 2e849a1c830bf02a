// A sample of short sheets and the interpreter's answers as text.
// A sheet is a line: its count of bytes in four hexadecimal digits, the readings' bits in sixteen each, its bytes in two each.
// Its answer is a line of the check, number and line and the kind codes where it passes; a line of the run, number and line and count; the text.
use crate::make::Maker;
use crate::random;
use crate::sheet::{LINES, OUTPUT, check, run};
use std::fs::File;
use std::io::{BufWriter, Result, Write};
use std::path::Path;

const MOST: usize = 16_385;

pub fn write(count: u64, seed: u64, folder: &str) -> Result<()> {
    let mut asked = BufWriter::new(File::create(Path::new(folder).join("stdin"))?);
    let mut answered = BufWriter::new(File::create(Path::new(folder).join("stdout"))?);
    let maker = Maker::new(true);
    let sheets = (0..).map(|at| maker.make(&mut random(seed, at))).filter(|made| made.sheet.len() <= MOST);
    for made in sheets.take(count as usize) {
        write!(asked, "{:04x} ", made.sheet.len())?;
        made.readings.iter().try_for_each(|bits| write!(asked, "{bits:016x} "))?;
        made.sheet.iter().try_for_each(|byte| write!(asked, "{byte:02x}"))?;
        writeln!(asked)?;
        answer(&made.sheet, &made.readings.map(f64::from_bits), &mut answered)?;
    }
    asked.flush()?;
    answered.flush()
}

fn answer(sheet: &[u8], readings: &[f64], to: &mut impl Write) -> Result<()> {
    let mut kinds = [0; LINES];
    let (number, line) = check(sheet, &mut kinds);
    write!(to, "check {number} {line}")?;
    if number == 0 {
        let lines = sheet.iter().filter(|&&b| b == b'\n').count();
        kinds[..lines].iter().try_for_each(|code| write!(to, " {code}"))?;
    }
    let mut out = [0; OUTPUT];
    let (number, line, written) = run(sheet, readings, &mut out);
    writeln!(to, "\nrun {number} {line} {written}")?;
    to.write_all(&out[..written as usize])
}
