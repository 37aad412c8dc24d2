//! The papers: the log, the event layout, the registers and the three modules. Depends on nothing.

pub mod block;
pub mod log;
pub mod module;
pub mod registers;
pub mod scaler;
pub mod v260;
pub mod v560;
pub mod v830;
pub mod write_log;
