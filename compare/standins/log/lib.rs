//! Stand-in for the `log` crate. The node's `LoggingErrorHandler` writes each DLL error with
//! `error!`. Those lines are kept, for each thread, so that a driver can read what was logged; all
//! others are dropped.

use std::cell::RefCell;
use std::fmt::Arguments;

const DLL_ERROR: &str = "[DLL Error]";

thread_local! {
    static DLL_ERRORS: RefCell<Vec<String>> = const { RefCell::new(Vec::new()) };
}

/// Keeps the line if it reports a DLL error. Called by `error!`.
pub fn record(line: Arguments) {
    let line = line.to_string();
    if line.starts_with(DLL_ERROR) {
        DLL_ERRORS.with_borrow_mut(|lines| lines.push(line));
    }
}

/// Hands out the lines kept since the last call, oldest first.
pub fn take_dll_errors() -> Vec<String> {
    DLL_ERRORS.take()
}

#[macro_export]
macro_rules! error {
    ($($arg:tt)+) => { $crate::record(::core::format_args!($($arg)+)) };
}

// As with a log level that is off: the arguments are checked by the compiler and never formatted.
#[macro_export]
macro_rules! off {
    ($($arg:tt)+) => { if false { let _ = ::core::format_args!($($arg)+); } };
}

#[macro_export]
macro_rules! warn {
    ($($arg:tt)+) => { $crate::off!($($arg)+) };
}

#[macro_export]
macro_rules! info {
    ($($arg:tt)+) => { $crate::off!($($arg)+) };
}

#[macro_export]
macro_rules! debug {
    ($($arg:tt)+) => { $crate::off!($($arg)+) };
}

#[macro_export]
macro_rules! trace {
    ($($arg:tt)+) => { $crate::off!($($arg)+) };
}
