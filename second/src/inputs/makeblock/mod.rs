//! Events to write, for `makeblock`.

pub mod fixed;
pub mod random;
