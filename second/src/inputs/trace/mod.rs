//! Heads and logs for `trace`, of each module.

pub mod broken;
pub mod calls;
pub mod calls_v830;
pub mod fixed;
pub mod fixed_v830;
pub mod heads;
pub mod heads_v830;
pub mod long;
pub mod random;
pub mod scripts;
pub mod scripts_v830;
