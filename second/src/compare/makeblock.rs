//! `compare makeblock`: events to write, each in a run of COMMAND of its own.

use crate::compare::blocks::{kind_of, HEAD_FAULTS, SETTINGS};
use crate::compare::difference::Verdict;
use crate::compare::run::Program;
use crate::compare::runs::{compare_parts, Counted, Part};
use crate::compare::tally::row::{shown_together, Row};
use crate::inputs::makeblock::fixed::fixed_requests;
use crate::inputs::makeblock::random::make_requests;
use crate::listings::makeblock::{own_makeblock, read_request, written, LARGEST_ROOM};
use crate::model::block::write_event;

/// The number of random inputs unless another is asked for.
pub const DEFAULT_REQUESTS: usize = 1_200;

/// Every answer that the writer can give.
const WRITER_ANSWERS: [u32; 4] = [0, 8, 27, 28];

/// What the requests gave.
pub struct MakeblockTally {
    events: usize,
    answers: Row<u32>,
    faults: Row<u32>,
    settings: Row<&'static str>,
    rooms: Row<usize>,
}

impl Default for MakeblockTally {
    /// Nothing seen yet.
    fn default() -> MakeblockTally {
        MakeblockTally {
            events: 0,
            answers: Row::new("events answered", WRITER_ANSWERS),
            faults: Row::new("faults of heads", HEAD_FAULTS),
            settings: Row::new("settings", SETTINGS),
            rooms: Row::new("rooms 0 to 64", 0..=LARGEST_ROOM as usize),
        }
    }
}

impl Counted for MakeblockTally {
    /// Counts what one request gives.
    fn add(&mut self, input: &[u8]) {
        match read_request(input) {
            Err(answer) => self.faults.add(answer),
            Ok(request) => {
                let (given, _) = written(&request, &write_event);
                self.events += 1;
                self.answers.add(given.answer);
                self.settings.add(kind_of(&request.settings));
                self.rooms.add(request.room);
            }
        }
    }

    /// How many events were asked for.
    fn events(&self) -> usize {
        self.events
    }

    /// The counts in words, and whether every possible thing occurred.
    fn shown(&self) -> (String, bool) {
        shown_together([
            self.answers.shown(),
            self.faults.shown(),
            self.settings.shown(),
            self.rooms.shown_least(),
        ])
    }
}

/// Compares COMMAND's `makeblock` listing of every input with this program's own.
pub fn compare_makeblock(program: &Program, seed: u64, cases: usize) -> Verdict {
    let part = |name, inputs| Part {
        program,
        name,
        inputs,
        needed: Some(Counted::shown),
    };
    let parts = [
        part("fixed", fixed_requests()),
        part("random", make_requests(seed, cases)),
    ];
    compare_parts::<MakeblockTally>(seed, &own_makeblock, &parts)
}
