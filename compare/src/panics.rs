//! Panics that are outcomes: a side that panics has answered wrongly, and the
//! comparison goes on.

use std::panic::{catch_unwind, AssertUnwindSafe};
use std::sync::atomic::{AtomicBool, Ordering};

/// True while a panic is caught and counted as an outcome (see `quiet`).
static CAUGHT: AtomicBool = AtomicBool::new(false);

/// Panics inside `caught` are not reported as they happen.
pub fn quiet() {
    let loud = std::panic::take_hook();
    std::panic::set_hook(Box::new(move |info| {
        if !CAUGHT.load(Ordering::Relaxed) {
            loud(info);
        }
    }));
}

/// What the call answers; none if it panicked.
pub fn caught<T>(call: impl FnOnce() -> T) -> Option<T> {
    CAUGHT.store(true, Ordering::Relaxed);
    let answer = catch_unwind(AssertUnwindSafe(call)).ok();
    CAUGHT.store(false, Ordering::Relaxed);
    answer
}
