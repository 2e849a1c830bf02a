// The library's numbers beside the Rust's; driver.rs says how it is called.
#![allow(dead_code)]
mod breaks;
mod driver;
mod earth;
mod feeds;
mod operations;
mod random;
mod remainders;
mod sample;
mod turns;
mod words;

extern "C" {
    fn numbers_apply(op: u64, inputs: *const u64, outputs: *mut u64);
}

fn main() {
    driver::run(&driver::Table {
        operations: &operations::OPERATIONS,
        first: 0,
        apply: numbers_apply,
        count: 1_000_000,
    })
}
