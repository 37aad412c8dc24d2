//! The listing `replay` of docs/FORMATS.md: a night of a V830 (document 02, M-100), made by a module.

use crate::listings::end::{put_end, End};
use crate::listings::own_module::own_start;
use crate::listings::trace::entries_from;
use crate::listings::trace_head::{Head, HeadSwitches};
use crate::model::module::{Call, Module};
use std::fmt::Write;

pub const REPLAY_TITLE: &str = "entry answer value\n";

/// The words of event memory that are lent to the module.
pub const REPLAY_WORDS: u32 = 16_384;

/// The fresh module of a replay, as the head of a trace would describe it.
pub fn replay_head() -> Head {
    Head {
        switches: HeadSwitches::V830([0, REPLAY_WORDS]),
        counts: vec![0; crate::model::block::CHANNELS],
    }
}

/// The whole `replay` listing of a log that ended so, by this module.
pub fn list_replay<M: Module>(log: &[u8], end: End, mut module: M) -> String {
    let mut listing = String::from(REPLAY_TITLE);
    let (entries, fault) = entries_from(log, 0);
    for (number, entry) in (1u64..).zip(&entries) {
        let given = module.call(Call::of(entry));
        writeln!(listing, "{} {} {}", number, given.answer, given.value)
            .expect("a String takes every line");
    }
    put_end(&mut listing, fault, end);
    listing
}

/// The whole `replay` listing of this program's own V830.
pub fn own_replay(log: &[u8]) -> String {
    list_replay(log, End::Whole, own_start(&replay_head()).1)
}
