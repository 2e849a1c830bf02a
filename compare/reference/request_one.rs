// The line of request One of document 02: how often it was met, where the published Rust would have answered the maximum.
use std::sync::atomic::{AtomicU64, Ordering::Relaxed};

static TIMES: AtomicU64 = AtomicU64::new(0);

#[cold]
pub fn met() {
    TIMES.fetch_add(1, Relaxed);
}

// Whether it is met while `work` is done, and what that answers.
pub fn met_during<T>(work: impl FnOnce() -> T) -> (bool, T) {
    let before = TIMES.load(Relaxed);
    let answer = work();
    (TIMES.load(Relaxed) != before, answer)
}
