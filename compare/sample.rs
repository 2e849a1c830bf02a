// A sample of inputs, after those generated for an operation the ones of breaks.rs, and the Rust's answers as text. A line is the operation's number in three digits, then each input or output as a space and 16 hexadecimal digits.
use crate::breaks;
use crate::driver::{Table, hex};
use crate::feeds::Feeder;
use crate::words::INPUTS;
use std::fs::File;
use std::io::{BufWriter, Result, Write};

pub fn write(table: &Table, count: u64, seed: u64, inputs: &str, answers: &str) -> Result<()> {
    let mut asked = BufWriter::new(File::create(inputs)?);
    let mut answered = BufWriter::new(File::create(answers)?);
    for (number, operation) in table.operations.iter().enumerate() {
        let number = table.first + number;
        let mut feeder = Feeder::of(seed, number);
        let turns = if operation.inputs == 0 { 1 } else { count };
        let generated = (0..turns).map(|_| {
            let mut words = vec![0; operation.inputs];
            feeder.fill(operation.feed, &mut words);
            words
        });
        for words in generated.chain(breaks::inputs(operation.name)) {
            let mut bits = [0; INPUTS];
            bits[..operation.inputs].copy_from_slice(&words);
            let answer = operation.answer(&bits);
            writeln!(asked, "{number:03}{}", hex(&bits[..operation.inputs]))?;
            writeln!(answered, "{number:03}{}", hex(&answer[..operation.outputs]))?;
        }
    }
    asked.flush()?;
    answered.flush()
}
