//! Stand-in for the `log` facade: the records are checked as format strings and dropped.

#[derive(Debug, Clone, Copy)]
pub enum Level {
    Debug,
}

#[macro_export]
macro_rules! log {
    (target: $target:expr, $level:expr, $($record:tt)+) => {
        { let _ = ($target, $level, format_args!($($record)+)); }
    };
}

#[macro_export]
macro_rules! info {
    ($($record:tt)+) => { { let _ = format_args!($($record)+); } };
}

#[macro_export]
macro_rules! warn {
    ($($record:tt)+) => { { let _ = format_args!($($record)+); } };
}
