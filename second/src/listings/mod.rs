//! What is printed, by docs/FORMATS.md, and the heads of what is read. Depends on the model.

pub mod blocks;
pub mod end;
pub mod head;
pub mod kind;
pub mod logs;
pub mod makeblock;
pub mod own_module;
pub mod replay;
pub mod trace;
pub mod trace_head;
