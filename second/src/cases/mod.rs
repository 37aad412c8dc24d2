//! Tests of the model and of the listings, mostly reckoned by hand. Only under test; depends on the model,
//! the listings and the inputs.

pub mod block;
pub mod failures;
pub mod replay;
pub mod trace;
pub mod v260;
pub mod v560;
pub mod v830;
