//! What the programs are given: fixed, random, long, cut and broken inputs. Depends on the model and
//! the listings. Of its folders `trace` may depend on `logs` and `blocks`, `makeblock` on `blocks`,
//! `replay` on `trace` and `logs`; of the files beside them `failures` on all, the others on none.

pub mod blocks;
pub mod broken_heads;
pub mod failures;
pub mod input;
pub mod logs;
pub mod makeblock;
pub mod numbers;
pub mod replay;
pub mod rng;
pub mod trace;
