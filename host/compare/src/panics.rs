//! Panics that are part of a comparison: caught and told as a difference, not printed one by one.

use std::panic::{catch_unwind, set_hook, take_hook, AssertUnwindSafe};
use std::sync::atomic::{AtomicBool, Ordering};

static EXPECTED: AtomicBool = AtomicBool::new(false);

/// Panics outside `caught` are still printed: they would be errors of the comparison itself.
pub fn print_others_only() {
    let print = take_hook();
    set_hook(Box::new(move |panic| {
        if !EXPECTED.load(Ordering::Relaxed) {
            print(panic);
        }
    }));
}

/// None when it panics.
pub fn caught<T>(run: impl FnOnce() -> T) -> Option<T> {
    EXPECTED.store(true, Ordering::Relaxed);
    let result = catch_unwind(AssertUnwindSafe(run)).ok();
    EXPECTED.store(false, Ordering::Relaxed);
    result
}
