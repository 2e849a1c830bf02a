// Times two functions in turn, so that both meet the same machine.
use std::hint::black_box;
use std::time::Instant;

// Nanoseconds a call and what the answers come to, over all inputs.
fn pass(inputs: usize, f: impl Fn(usize) -> u64) -> (f64, u64) {
    let start = Instant::now();
    let mut all = 0u64;
    for i in 0..inputs {
        all = all.rotate_left(1) ^ f(i);
    }
    (start.elapsed().as_secs_f64() * 1e9 / inputs as f64, black_box(all))
}

// The best of some rounds of each side, in nanoseconds a call. The answers must be alike, bit for bit.
pub fn best(name: &str, inputs: usize, rounds: usize, rust: impl Fn(usize) -> u64, rattle: impl Fn(usize) -> u64) -> (f64, f64) {
    let (mut best_rust, mut best_rattle) = (f64::INFINITY, f64::INFINITY);
    for _ in 0..rounds {
        let (time, answers) = pass(inputs, &rust);
        best_rust = best_rust.min(time);
        let (time, same) = pass(inputs, &rattle);
        best_rattle = best_rattle.min(time);
        assert_eq!(answers, same, "{name}: the answers differ");
    }
    (best_rust, best_rattle)
}
