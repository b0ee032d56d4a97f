//! Stand-in for the crate `log` as it is compiled with every level switched off for release: a message costs nothing.

#[macro_export]
macro_rules! trace {
    ($($message:tt)+) => { if false { let _ = format_args!($($message)+); } };
}

#[macro_export]
macro_rules! debug {
    ($($message:tt)+) => { if false { let _ = format_args!($($message)+); } };
}

#[macro_export]
macro_rules! warn {
    ($($message:tt)+) => { if false { let _ = format_args!($($message)+); } };
}
