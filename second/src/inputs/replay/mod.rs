//! Logs for `replay`, and the night.

pub mod cut;
pub mod edges;
pub mod fixed;
pub mod long;
pub mod night;
pub mod random;
