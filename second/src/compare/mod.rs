//! The comparison: running COMMAND, comparing, shrinking, and a file of each kind of it. Depends on the
//! model, the listings and the inputs. Its folders `tally` and `ledger` serve the kinds.

pub mod blocks;
pub mod difference;
pub mod entries;
pub mod failing;
pub mod failures;
pub mod ledger;
pub mod logs;
pub mod makeblock;
pub mod replay;
pub mod run;
pub mod runs;
pub mod shrink;
pub mod shrink_trace;
pub mod tally;
pub mod trace;
