//! Captures for `blocks`, and the events in them.

pub mod broken_events;
pub mod events;
pub mod fixed;
pub mod long;
pub mod random;
