//! What the inputs of a comparison gave, counted: what never occurred was not compared.

pub mod edges;
pub mod logs;
pub mod row;
pub mod scalers;
pub mod v830;
