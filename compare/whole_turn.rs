// For which x request One of document 02 changes the bearing of the enu vector (x, 1, 0), by search over the bits.
//   whole_turn    prints the least and the greatest such x, in bits and in decimals, and the bearing of the next x below; status 1 if the doubles about the two are not as this says, or the library answers one of them otherwise than the Rust
#![allow(dead_code)]
mod random;

use random::{power_of_two, step};
use reference::local::EnuVector;
use reference::request_one::met_during;
use std::process::exit;

extern "C" {
    fn frames_apply(op: u64, inputs: *const u64, outputs: *mut u64);
}

const BEARING: u64 = 25;
const STEPS: i64 = 100_000;

// Whether the line of request One is met, and the Rust's answer.
fn rust(x: f64) -> (bool, u64) {
    met_during(|| EnuVector::from_metres(x, 1.0, 0.0).bearing().as_radians().to_bits())
}

fn rattle(x: f64) -> u64 {
    let mut inputs = [0; 32];
    inputs[1..3].copy_from_slice(&[x, 1.0].map(f64::to_bits));
    let mut outputs = [0; 24];
    unsafe { frames_apply(BEARING, inputs.as_ptr(), outputs.as_mut_ptr()) };
    outputs[0]
}

// The last x that is changed on the way from one that is to one that is not, both below zero or minus zero.
fn last(changed: f64, kept: f64) -> f64 {
    let (mut inside, mut outside) = (changed.to_bits(), kept.to_bits());
    while inside.abs_diff(outside) > 1 {
        let middle = inside.midpoint(outside);
        if rust(f64::from_bits(middle)).0 {
            inside = middle;
        } else {
            outside = middle;
        }
    }
    f64::from_bits(inside)
}

fn main() {
    let within = -power_of_two(-100);
    let (least, greatest) = (last(within, -1.0), last(within, -0.0));
    for (name, x) in [("least x   ", least), ("greatest x", greatest)] {
        println!("{name} {:016x} {x:e}", x.to_bits());
    }
    let below = rust(step(least, -1)).1;
    println!("the next below the least has the bearing {below:016x} {:e}", f64::from_bits(below));

    let about = [least, greatest].into_iter().flat_map(|x| (-STEPS..=STEPS).map(move |k| step(x, k)));
    let powers = (52..=1022).map(|e| -power_of_two(-e));
    let (mut count, mut otherwise, mut different) = (0, 0, 0);
    for x in about.chain(powers).chain([-0.0]) {
        let (changed, bearing) = rust(x);
        let between = least <= x && x <= greatest;
        count += 1;
        otherwise += (changed != between || between && bearing != 0) as u64;
        different += (bearing != rattle(x)) as u64;
    }
    println!("{STEPS} doubles on either side of each and the powers of two between: {count} bearings, {otherwise} otherwise, {different} different");
    exit(if otherwise == 0 && different == 0 { 0 } else { 1 });
}
