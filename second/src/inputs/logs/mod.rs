//! Logs: cases of `logcases`, whole logs of `entries`, and the entries of every log.

pub mod case;
pub mod entries;
pub mod fixed;
pub mod random;
pub mod whole;
