//! Stand-in for the crate `log`: the last message of this thread is kept, since it tells which check refused.
use std::cell::RefCell;
use std::fmt::Arguments;

thread_local! {
    static LAST: RefCell<Option<String>> = const { RefCell::new(None) };
}

pub fn keep(message: Arguments) {
    LAST.with(|last| *last.borrow_mut() = Some(message.to_string()));
}

/// The last message since the last call of this function.
pub fn take() -> Option<String> {
    LAST.with(|last| last.borrow_mut().take())
}

#[macro_export]
macro_rules! trace {
    ($($message:tt)+) => { $crate::keep(format_args!($($message)+)) };
}

#[macro_export]
macro_rules! debug {
    ($($message:tt)+) => { $crate::keep(format_args!($($message)+)) };
}

#[macro_export]
macro_rules! warn {
    ($($message:tt)+) => { $crate::keep(format_args!($($message)+)) };
}
