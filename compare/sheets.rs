// Bore sheets made from a seed, checked and run by the library beside the interpreter in compare/sheet.
//   sheets [COUNT [SEED]]    COUNT sheets; status 1 if any answer or any lent byte differs
//   sheets table             every operator with every list of up to three kinds, and of as many as it takes
//   sheets sample N FOLDER   writes N sheets to FOLDER/stdin, and the interpreter's answers to FOLDER/stdout
//   sheets text SHEET [READINGS]   the interpreter's text for a sheet in a file
#![allow(dead_code)]
#[path = "sheet/aparts.rs"]
mod aparts;
#[path = "sheet/beside.rs"]
mod beside;
#[path = "../examples/rust/boresheet.rs"]
mod library;
#[path = "sheet/make/mod.rs"]
mod make;
mod random;
mod sheet;
#[path = "sheet/stored.rs"]
mod stored;
#[path = "sheet/tally.rs"]
mod tally;
#[path = "sheet/text.rs"]
mod text;
#[path = "sheet/totals.rs"]
mod totals;

use beside::Beside;
use make::{Made, Maker, table};
use random::Random;
use std::process::exit;
use tally::Tally;

const COUNT: u64 = 20_000;
const SEED: u64 = 20261115;
const SHOWN: u64 = 5;

// A generator of its own for each sheet, so that any of them can be made alone.
fn random(seed: u64, at: u64) -> Random {
    let start = seed.wrapping_add(at.wrapping_mul(0xd134_2543_de82_ef95));
    Random(Random(start).bits())
}

fn compare(sheets: impl Iterator<Item = (Random, Made)>) -> bool {
    let mut beside = Beside::new();
    let mut tally = Tally::new();
    for (at, (mut r, made)) in sheets.enumerate() {
        let compared = beside.compare(&mut r, made, &mut tally.applied, &mut tally.met);
        if !compared.differences.is_empty() && tally.different < SHOWN {
            println!("sheet {at} differs\n{compared}");
        }
        tally.add(&compared);
    }
    tally.print();
    tally.different == 0
}

fn made(count: u64, seed: u64) -> bool {
    println!("seed {seed}");
    let maker = Maker::new(false);
    compare((0..count).map(|at| {
        let mut r = random(seed, at);
        let made = maker.make(&mut r);
        (r, made)
    }))
}

fn usage() -> ! {
    eprintln!("usage: sheets [COUNT [SEED]] | sheets table | sheets sample N FOLDER | sheets text SHEET [READINGS]");
    exit(2)
}

fn whole(text: &str) -> u64 {
    text.parse().unwrap_or_else(|_| usage())
}

fn main() {
    let args: Vec<String> = std::env::args().skip(1).collect();
    let args: Vec<&str> = args.iter().map(String::as_str).collect();
    let same = match args[..] {
        ["sample", n, folder] => {
            stored::write(whole(n), SEED, folder).expect("the sample could not be written");
            true
        }
        ["text", sheet] => {
            text::print(sheet, None);
            true
        }
        ["text", sheet, readings] => {
            text::print(sheet, Some(readings));
            true
        }
        ["table"] => compare(table::all().enumerate().map(|(at, made)| (random(SEED, at as u64), made))),
        [] => made(COUNT, SEED),
        [count] => made(whole(count), SEED),
        [count, seed] => made(whole(count), whole(seed)),
        _ => usage(),
    };
    exit(if same { 0 } else { 1 });
}
