//! The kinds of listings, and this program's own listing of each.

use crate::listings::blocks::list_blocks;
use crate::listings::end::End;
use crate::listings::logs::{list_cases, list_entries, OWN_READER};
use crate::listings::makeblock::list_makeblock;
use crate::listings::own_module::own_start;
use crate::listings::replay::{list_replay, replay_head};
use crate::listings::trace::list_trace;
use crate::model::block::{read_event, write_event};

/// What a comparison or an answer is about.
#[derive(Clone, Copy, Debug, PartialEq, Eq)]
pub enum Kind {
    Logs,
    Entries,
    Blocks,
    Makeblock,
    Trace,
    Replay,
}

/// Every kind, by its name.
pub const KINDS: [(&str, Kind); 6] = [
    ("logs", Kind::Logs),
    ("entries", Kind::Entries),
    ("blocks", Kind::Blocks),
    ("makeblock", Kind::Makeblock),
    ("trace", Kind::Trace),
    ("replay", Kind::Replay),
];

impl Kind {
    /// This program's own listing of the bytes of an input that ended so.
    pub fn listing(self, bytes: &[u8], end: End) -> String {
        match self {
            Kind::Logs => list_cases(bytes, end, &OWN_READER),
            Kind::Entries => list_entries(bytes, end, &OWN_READER),
            Kind::Blocks => list_blocks(bytes, end, &read_event),
            Kind::Makeblock => list_makeblock(bytes, end, &write_event),
            Kind::Trace => list_trace(bytes, end, &own_start),
            Kind::Replay => list_replay(bytes, end, own_start(&replay_head()).1),
        }
    }
}
