//! Panics of the original that are answers: its sum or shift has no value.

use std::cell::Cell;
use std::panic::{self, UnwindSafe};

thread_local! {
    static EXPECTED: Cell<bool> = const { Cell::new(false) };
}

/// The value, or nothing where the overflow checks stop the computation.
pub fn defined<T>(compute: impl FnOnce() -> T + UnwindSafe) -> Option<T> {
    EXPECTED.set(true);
    let value = panic::catch_unwind(compute).ok();
    EXPECTED.set(false);
    value
}

/// Keeps the expected panics quiet, and only those.
pub fn quieten() {
    let report = panic::take_hook();
    panic::set_hook(Box::new(move |info| {
        if !EXPECTED.get() {
            report(info);
        }
    }));
}
