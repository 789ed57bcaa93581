//! Stands in for the crate's own `fmt.rs`, which is not among its published sources: the log macros do nothing, and `unwrap!` is `unwrap`.
#![macro_use]
#![allow(unused_macros)]
macro_rules! trace { ($s:literal $(, $x:expr)* $(,)?) => {{ let _ = ($( & $x ),*); }}; }
macro_rules! debug { ($s:literal $(, $x:expr)* $(,)?) => {{ let _ = ($( & $x ),*); }}; }
macro_rules! info { ($s:literal $(, $x:expr)* $(,)?) => {{ let _ = ($( & $x ),*); }}; }
macro_rules! warn { ($s:literal $(, $x:expr)* $(,)?) => {{ let _ = ($( & $x ),*); }}; }
macro_rules! unwrap { ($arg:expr) => { $arg.unwrap() }; }
