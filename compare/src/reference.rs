//! Calls of plotters, which may panic.

use std::cell::Cell;
use std::panic::{catch_unwind, set_hook, take_hook, AssertUnwindSafe};

thread_local!(static CALLING: Cell<bool> = const { Cell::new(false) });

/// Keeps the panics of plotters, and no others, from being printed.
pub fn hush() {
    let loud = take_hook();
    set_hook(Box::new(move |info| {
        if !CALLING.get() {
            loud(info)
        }
    }));
}

/// What the call gives, or nothing if it panics.
pub fn caught<T>(call: impl FnOnce() -> T) -> Option<T> {
    CALLING.set(true);
    let told = catch_unwind(AssertUnwindSafe(call)).ok();
    CALLING.set(false);
    told
}
