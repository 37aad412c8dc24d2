//! A ledger of what COMMAND printed of every V830 run. It knows no module, only calls and event layout.

pub mod audit;
pub mod books;
pub mod printed;
