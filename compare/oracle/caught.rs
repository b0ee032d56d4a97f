//! A call of the original: its panics are an answer, and the oracle's own are not.
use std::cell::Cell;
use std::panic::{catch_unwind, set_hook, take_hook, AssertUnwindSafe};

/// The original panicked.
pub struct Panicked;

thread_local! {
    static IN_ORIGINAL: Cell<bool> = const { Cell::new(false) };
}

/// Panics of the original are passed over in silence; any other is told as always.
pub fn quiet() {
    let told = take_hook();
    set_hook(Box::new(move |panic| {
        if !IN_ORIGINAL.get() {
            told(panic);
        }
    }));
}

/// Whatever a panic leaves behind is dropped or looked at by nobody, so that no half-made change is taken for a whole one.
pub fn original<T>(call: impl FnOnce() -> T) -> Result<T, Panicked> {
    log::take();
    IN_ORIGINAL.set(true);
    let answer = catch_unwind(AssertUnwindSafe(call)).map_err(|_| Panicked);
    IN_ORIGINAL.set(false);
    answer
}
