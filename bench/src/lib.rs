//! The benchmark's two parts that need no model: the plain engine and the lists of calls.

#![forbid(unsafe_code)]

pub mod plain;
pub mod trace;

#[cfg(test)]
mod agree;
#[cfg(test)]
mod pair;
#[cfg(test)]
mod replays;
