//! Programs that are wrong on purpose, which the comparison must catch. Only under test; depends on all.

pub mod accesses;
pub mod block_listings;
pub mod block_readers;
pub mod block_writers;
pub mod caught;
pub mod edges;
pub mod failures;
pub mod modules;
pub mod readers;
pub mod replays;
pub mod slips;
pub mod trace_listings;
pub mod traces;
pub mod v830;
pub mod v830_slips;
pub mod v830_store;
pub mod v830_traces;
