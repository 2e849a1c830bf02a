// The library's frames beside the Rust's; driver.rs says how it is called.
#![allow(dead_code)]
mod breaks;
mod driver;
mod earth;
mod feeds;
mod frame_operations;
mod random;
mod remainders;
mod sample;
mod turns;
mod words;

extern "C" {
    fn frames_apply(op: u64, inputs: *const u64, outputs: *mut u64);
}

fn main() {
    driver::run(&driver::Table {
        operations: &frame_operations::OPERATIONS,
        first: 100,
        apply: frames_apply,
        count: 200_000,
    })
}
