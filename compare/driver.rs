// Runs a table of operations of the library beside the Rust's, bit for bit; any NaN counts as any other.
//   DRIVER [COUNT [SEED]]          COUNT inputs for each operation; status 1 if any answer differs
//   DRIVER sample N INPUTS ANSWERS writes N inputs for each operation, and the Rust's answers
use crate::feeds::Feeder;
use crate::random;
use crate::sample;
use crate::words::{INPUTS, OUTPUTS, Operation, one_nan};
use reference::request_one::met_during;
use std::process::exit;

pub struct Table {
    pub operations: &'static [Operation],
    // what is added to an operation's number in a report and in a sample
    pub first: usize,
    // the library's
    pub apply: unsafe extern "C" fn(u64, *const u64, *mut u64),
    // inputs for each operation, where none are asked for
    pub count: u64,
}

const SEED: u64 = 20261115;
const SHOWN: u64 = 5;

// What an operation's comparison has come to.
struct Tally<'a> {
    table: &'a Table,
    number: usize,
    operation: &'a Operation,
    count: u64,
    // answers of the Rust with no NaN
    plain: u64,
    // inputs at which the Rust meets the line of request One
    request_one: u64,
    different: u64,
}

impl Tally<'_> {
    fn compare(&mut self, inputs: &[u64; INPUTS]) {
        // places left as they were would show
        let mut ours = [0xa5a5_a5a5_a5a5_a5a5; OUTPUTS];
        unsafe { (self.table.apply)(self.number as u64, inputs.as_ptr(), ours.as_mut_ptr()) };
        let (met, theirs) = met_during(|| self.operation.answer(inputs));
        self.count += 1;
        self.request_one += met as u64;
        self.plain += !theirs.iter().any(|&b| f64::from_bits(b).is_nan()) as u64;
        if ours.map(one_nan) != theirs {
            self.different += 1;
            if self.different <= SHOWN {
                self.show(inputs, &ours, &theirs);
            }
        }
    }

    fn show(&self, inputs: &[u64; INPUTS], ours: &[u64; OUTPUTS], theirs: &[u64; OUTPUTS]) {
        // the answer's places, and those after it as far as they differ
        let last = (0..OUTPUTS).rev().find(|&k| ours[k] != theirs[k]).unwrap_or(0);
        let shown = self.operation.outputs.max(last + 1);
        println!("   {} differs at{}", self.operation.name, hex(&inputs[..self.operation.inputs]));
        println!("      Rust  {}", hex(&theirs[..shown]));
        println!("      Rattle{}", hex(&ours[..shown]));
    }

    // Every special value, or every pair of them.
    fn specials(&mut self, values: &[u64]) {
        let mut inputs = [0; INPUTS];
        let seconds = if self.operation.inputs == 2 { values } else { &[0] };
        for &first in values {
            for &second in seconds {
                inputs[0] = first;
                inputs[1] = second;
                self.compare(&inputs);
            }
        }
    }

    fn generated(&mut self, seed: u64, count: u64) {
        let mut feeder = Feeder::of(seed, self.table.first + self.number);
        for _ in 0..count {
            let mut inputs = [0; INPUTS];
            feeder.fill(self.operation.feed, &mut inputs[..self.operation.inputs]);
            self.compare(&inputs);
        }
    }
}

pub fn hex(bits: &[u64]) -> String {
    bits.iter().map(|b| format!(" {b:016x}")).collect()
}

fn compare(table: &Table, count: u64, seed: u64) -> bool {
    let values: Vec<u64> = random::specials().into_iter().map(f64::to_bits).collect();
    println!("seed {seed}, {count} inputs for each operation, after {} special values or every pair of them", values.len());
    let (mut total, mut met, mut different) = (0, 0, 0);
    for (number, operation) in table.operations.iter().enumerate() {
        let mut tally = Tally { table, number, operation, count: 0, plain: 0, request_one: 0, different: 0 };
        match operation.inputs {
            0 => tally.generated(seed, 1),
            1 | 2 => {
                tally.specials(&values);
                tally.generated(seed, count)
            }
            _ => tally.generated(seed, count),
        }
        let number = table.first + number;
        let Tally { count, plain, .. } = tally;
        print!("{number:03} {:<37} {count:>10} inputs {plain:>10} without NaN {:>8} different", operation.name, tally.different);
        match tally.request_one {
            0 => println!(),
            met => println!(" {met:>8} meet request One"),
        }
        total += tally.count;
        met += tally.request_one;
        different += tally.different;
    }
    println!("total: {} operations, {total} inputs, {met} meet request One, {different} different", table.operations.len());
    different == 0
}

fn usage() -> ! {
    eprintln!("usage: DRIVER [COUNT [SEED]] | DRIVER sample N INPUTS ANSWERS");
    exit(2)
}

fn whole(text: &str) -> u64 {
    text.parse().unwrap_or_else(|_| usage())
}

pub fn run(table: &Table) -> ! {
    let args: Vec<String> = std::env::args().skip(1).collect();
    let args: Vec<&str> = args.iter().map(String::as_str).collect();
    let same = match args[..] {
        ["sample", n, inputs, answers] => {
            sample::write(table, whole(n), SEED, inputs, answers).expect("the sample could not be written");
            true
        }
        [] => compare(table, table.count, SEED),
        [count] => compare(table, whole(count), SEED),
        [count, seed] => compare(table, whole(count), whole(seed)),
        _ => usage(),
    };
    exit(if same { 0 } else { 1 });
}
