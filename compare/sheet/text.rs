// One sheet by the interpreter alone: its text on standard output, its refusal's number and line on standard error.
use crate::sheet::{OUTPUT, READINGS, run};
use std::fs;
use std::io::{Write, stdout};

// A reading as a file has it: 16 hexadecimal digits of its bits, or a number as in a sheet.
fn reading(line: &str) -> f64 {
    match u64::from_str_radix(line, 16) {
        Ok(bits) if line.len() == 16 => f64::from_bits(bits),
        _ => line.parse().expect("a reading"),
    }
}

pub fn print(sheet: &str, readings: Option<&str>) {
    let sheet = fs::read(sheet).expect("the sheet could not be read");
    let file = readings.map(|file| fs::read_to_string(file).expect("the readings could not be read"));
    let values: Vec<f64> = file.map_or(vec![0.0; READINGS], |text| text.lines().map(reading).collect());
    let mut out = vec![0; OUTPUT];
    let (number, line, written) = run(&sheet, &values, &mut out);
    stdout().write_all(&out[..written as usize]).expect("standard output could not be written");
    if number != 0 {
        eprintln!("refusal {number} at line {line}");
    }
}
