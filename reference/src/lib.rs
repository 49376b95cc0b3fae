//! The parts of the second program for the host interface of an I3C controller: the
//! engine, the numbers of its answers, its lines, its traces, the checker of demand 3, the
//! cases marked P and the statement of when a bank is well formed.
//!
//! Public is what the program (`main.rs`) and the tests of `bench/` use.

#![forbid(unsafe_code)]

pub mod cases;
pub mod demand;
pub mod engine;
pub mod formed;
pub mod lines;
pub mod number;
pub mod trace;
