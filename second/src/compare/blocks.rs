//! `compare blocks`: captures, each in a run of COMMAND of its own.

use crate::compare::difference::Verdict;
use crate::compare::run::Program;
use crate::compare::runs::{compare_parts, Counted, Part};
use crate::compare::tally::row::{shown_together, Row};
use crate::inputs::blocks::fixed::fixed_blocks;
use crate::inputs::blocks::long::long_blocks;
use crate::inputs::blocks::random::{make_blocks, LONGEST_COUNTED};
use crate::listings::blocks::{own_blocks, read_capture};
use crate::model::block::{read_event, Settings};

/// The number of random inputs unless another is asked for.
pub const DEFAULT_BLOCKS: usize = 2_000;

/// Every answer that an event of a listing can have, and every fault of a head.
const EVENT_ANSWERS: [u32; 9] = [0, 8, 20, 21, 22, 23, 24, 25, 26];
pub const HEAD_FAULTS: [u32; 4] = [30, 31, 32, 34];

/// Every kind of settings.
pub const SETTINGS: [&str; 4] = ["long", "short", "long with header", "short with header"];

/// The kind of these settings.
pub fn kind_of(settings: &Settings) -> &'static str {
    SETTINGS[usize::from(settings.short) + 2 * usize::from(settings.header)]
}

/// What the captures gave.
pub struct BlocksTally {
    events: usize,
    answers: Row<u32>,
    faults: Row<u32>,
    left: Row<usize>,
    settings: Row<&'static str>,
    lengths: Row<usize>,
    company: Row<&'static str>,
}

impl Default for BlocksTally {
    /// Nothing seen yet.
    fn default() -> BlocksTally {
        BlocksTally {
            events: 0,
            answers: Row::new("events answered", EVENT_ANSWERS),
            faults: Row::new("faults of heads", HEAD_FAULTS),
            left: Row::new("bytes left (30)", 1..=3),
            settings: Row::new("settings", SETTINGS),
            lengths: Row::new("words 0 to 70", 0..=LONGEST_COUNTED),
            company: Row::new("captures", ["no event", "one event", "several events"]),
        }
    }
}

impl Counted for BlocksTally {
    /// Counts what one capture gives.
    fn add(&mut self, input: &[u8]) {
        let capture = match read_capture(input, &read_event) {
            Err(answer) => return self.faults.add(answer),
            Ok(capture) => capture,
        };
        for (_, read) in &capture.events {
            self.answers.add(read.answer);
        }
        self.events += capture.events.len();
        self.settings.add(kind_of(&capture.settings));
        self.lengths.add(capture.words);
        self.company.add(match capture.events.len() {
            0 => "no event",
            1 => "one event",
            _ => "several events",
        });
        if let Some(place) = capture.left {
            self.left.add(input.len() - place);
        }
    }

    /// How many events were read.
    fn events(&self) -> usize {
        self.events
    }

    /// The counts in words, and whether every possible thing occurred.
    fn shown(&self) -> (String, bool) {
        shown_together([
            self.answers.shown(),
            self.faults.shown(),
            self.left.shown(),
            self.settings.shown(),
            self.company.shown(),
            self.lengths.shown_least(),
        ])
    }
}

/// Compares COMMAND's `blocks` listing of every input with this program's own.
pub fn compare_blocks(program: &Program, seed: u64, cases: usize) -> Verdict {
    let part = |name, inputs, needed| Part {
        program,
        name,
        inputs,
        needed,
    };
    let parts = [
        part("fixed", fixed_blocks(), Some(Counted::shown)),
        part("long", long_blocks(seed), None),
        part("random", make_blocks(seed, cases), Some(Counted::shown)),
    ];
    compare_parts::<BlocksTally>(seed, &own_blocks, &parts)
}
