// The same as examples/c/tip.c, from Rust: checks a sheet from standard input and runs it over sixteen readings of 0.
mod boresheet;

use std::io::{Read, Write, stderr, stdin, stdout};
use std::process::exit;

// The kind code of each line, or the refusal and its line.
fn check(sheet: &[u8]) -> Result<Vec<u8>, (u32, u32)> {
    let mut kinds = [0; 96];
    let (number, line) = boresheet::check(sheet, &mut kinds);
    let lines = sheet.iter().filter(|&&b| b == b'\n').count();
    if number == 0 { Ok(kinds[..lines].to_vec()) } else { Err((number, line)) }
}

// The text, and the refusal with its line where there is one.
fn run(sheet: &[u8], readings: &[f64; 16]) -> (Vec<u8>, Option<(u32, u32)>) {
    let mut out = vec![0; 24576];
    let (number, line, written) = boresheet::run(sheet, readings, &mut out);
    out.truncate(written as usize);
    (out, (number != 0).then_some((number, line)))
}

fn refused(who: &str, (number, line): (u32, u32)) -> ! {
    writeln!(stderr(), "{who}: refusal {number} at line {line}").unwrap();
    exit(number as i32)
}

fn main() {
    let mut sheet = Vec::new();
    stdin().take(16385).read_to_end(&mut sheet).expect("standard input could not be read");
    let kinds = check(&sheet).unwrap_or_else(|refusal| refused("check", refusal));
    let codes: String = kinds.iter().map(|k| format!(" {k}")).collect();
    println!("kinds{codes}");
    let (text, refusal) = run(&sheet, &[0.0; 16]);
    stdout().write_all(&text).unwrap();
    if let Some(refusal) = refusal {
        refused("run", refusal)
    }
}
