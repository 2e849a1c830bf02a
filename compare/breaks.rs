// Inputs at and beside the places where a stand-in takes other steps: the arctangent's break, and the angles at which the number of quarter turns changes.
use crate::random::step;

// The words of each input for an operation of this name; none for most.
pub fn inputs(name: &str) -> Vec<Vec<u64>> {
    let inputs: Vec<Vec<f64>> = match name {
        "sin" | "cos" => turnings().into_iter().map(|x| vec![x]).collect(),
        "atan2" => tangents().into_iter().flat_map(legs).flat_map(|[y, x]| [vec![y, x], vec![-y, x], vec![y, -x], vec![-y, -x]]).collect(),
        "asin" => tangents().into_iter().flat_map(|t| legs(t).map(|[y, _]| y / (1.0 + t * t).sqrt())).flat_map(|x| [vec![x], vec![-x]]).collect(),
        _ => vec![],
    };
    inputs.iter().map(|numbers| numbers.iter().map(|x| x.to_bits()).collect()).collect()
}

// The two ways round in which the smaller of two magnitudes is t times the greater.
fn legs(t: f64) -> [[f64; 2]; 2] {
    [[t, 1.0], [1.0, t]]
}

// The break, its neighbours, and numbers just above it.
fn tangents() -> Vec<f64> {
    let beside = (-2..=2).map(|k| step(0.41421356, k));
    beside.chain((1..=9).map(|k| 0.41421356 + k as f64 * 1e-9)).collect()
}

// For each number n of quarter turns within the range the last angle that has it, and the next, which has one more.
fn turnings() -> Vec<f64> {
    let quarters = |x: f64| (x * 0.6366197723675814 - 0.5).ceil();
    let last = |n: i64| {
        let n = n as f64;
        let mut x = step((n + 0.5) / 0.6366197723675814, -8);
        assert!(quarters(x) == n);
        while quarters(step(x, 1)) == n {
            x = step(x, 1);
        }
        x
    };
    (-41..=40).map(last).flat_map(|x| [x, step(x, 1)]).collect()
}
