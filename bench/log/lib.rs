//! Stand-in for the `log` crate with every level off when it is compiled: a line's arguments are
//! checked by the compiler and never formatted.

#[macro_export]
macro_rules! error {
    ($($arg:tt)+) => { if false { let _ = ::core::format_args!($($arg)+); } };
}

#[macro_export]
macro_rules! warn {
    ($($arg:tt)+) => { $crate::error!($($arg)+) };
}

#[macro_export]
macro_rules! info {
    ($($arg:tt)+) => { $crate::error!($($arg)+) };
}

#[macro_export]
macro_rules! debug {
    ($($arg:tt)+) => { $crate::error!($($arg)+) };
}

#[macro_export]
macro_rules! trace {
    ($($arg:tt)+) => { $crate::error!($($arg)+) };
}
