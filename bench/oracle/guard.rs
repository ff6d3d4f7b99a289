//! Calls of the Rust that may panic.

use std::cell::Cell;
use std::panic::{catch_unwind, set_hook, take_hook, UnwindSafe};

thread_local! {
    static IS_GUARDED: Cell<bool> = const { Cell::new(false) };
}

/// The call's result, or nothing if it panicked.
pub fn guarded<T>(call: impl FnOnce() -> T + UnwindSafe) -> Option<T> {
    IS_GUARDED.set(true);
    let result = catch_unwind(call);
    IS_GUARDED.set(false);
    result.ok()
}

/// The answers say where the Rust panics, so it need not print it.
pub fn silence_panics() {
    let usual = take_hook();
    set_hook(Box::new(move |panic| {
        if !IS_GUARDED.get() {
            usual(panic);
        }
    }));
}
