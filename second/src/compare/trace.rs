//! `compare trace`: logs for a V260, a V560 or a V830, each in a run of COMMAND of its own.

use crate::compare::difference::Verdict;
use crate::compare::ledger::books::Books;
use crate::compare::run::Program;
use crate::compare::runs::{compare_parts, Counted, Part};
use crate::compare::shrink::Smaller;
use crate::compare::shrink_trace::smaller_traces;
use crate::compare::tally::row::{shown_together, Row};
use crate::compare::tally::scalers::ModuleTally;
use crate::compare::tally::v830::V830Tally;
use crate::inputs::trace::fixed::fixed_traces;
use crate::inputs::trace::long::long_traces;
use crate::inputs::trace::random::make_traces;
use crate::listings::trace::{entries_from, own_trace};
use crate::listings::trace_head::{read_head, HeadSwitches};
use crate::model::module::Call;

/// The number of random whole runs of each module unless another is asked for; of the V830 half as
/// many again are made.
pub const DEFAULT_RUNS: usize = 1_200;

/// The faults of heads and of logs.
pub const FAULTS: [u32; 5] = [30, 31, 32, 33, 34];

/// What the inputs gave.
pub struct TraceTally {
    entries: usize,
    v260: ModuleTally,
    v560: ModuleTally,
    v830: V830Tally,
    head_faults: Row<u32>,
    log_faults: Row<u32>,
    logs: Row<&'static str>,
}

impl Default for TraceTally {
    /// Nothing seen yet.
    fn default() -> TraceTally {
        TraceTally {
            entries: 0,
            v260: ModuleTally::of_260(),
            v560: ModuleTally::of_560(),
            v830: V830Tally::default(),
            head_faults: Row::new("faults of heads", FAULTS),
            log_faults: Row::new("faults of logs", FAULTS),
            logs: Row::new("logs", ["empty", "60 entries or more", "with less"]),
        }
    }
}

impl Counted for TraceTally {
    const WHAT: &'static str = "entries";
    const SMALLER: Smaller = smaller_traces;

    /// Counts what one input gives.
    fn add(&mut self, input: &[u8]) {
        let (head, place) = match read_head(input) {
            Err(answer) => return self.head_faults.add(answer),
            Ok(head) => head,
        };
        let (entries, fault) = entries_from(input, place);
        self.entries += entries.len();
        let calls = entries.iter().map(Call::of);
        match head.switches {
            HeadSwitches::V260(_) => self.v260.add_run(&head, calls),
            HeadSwitches::V560(_) => self.v560.add_run(&head, calls),
            HeadSwitches::V830(_) => self.v830.add_run(&head, calls),
        }
        self.logs.add(match entries.len() {
            0 => "empty",
            1..=59 => "with less",
            _ => "60 entries or more",
        });
        if let Some((answer, _)) = fault {
            self.log_faults.add(answer);
        }
    }

    /// How many entries were read.
    fn events(&self) -> usize {
        self.entries
    }

    /// The counts in words, and whether every possible thing occurred.
    fn shown(&self) -> (String, bool) {
        shown_together([
            self.v260.shown(),
            self.v560.shown(),
            self.v830.shown(),
            self.head_faults.shown(),
            self.log_faults.shown(),
            self.logs.shown(),
        ])
    }
}

/// Compares COMMAND's `trace` listing of every input with this program's own, and enters those of a
/// V830 in the ledger's books.
pub fn compare_trace(program: &Program, seed: u64, cases: usize) -> Verdict {
    let books = Books::default();
    let entered = |input: &[u8], most: usize| {
        let listing = program(input, most)?;
        books.enter(input, &listing);
        Ok(listing)
    };
    let part = |name, inputs, needed| Part {
        program: &entered,
        name,
        inputs,
        needed,
    };
    let parts = [
        part("fixed", fixed_traces(), Some(Counted::shown)),
        part("long", long_traces(seed), None),
        part("random", make_traces(seed, cases), Some(Counted::shown)),
    ];
    let verdict = compare_parts::<TraceTally>(seed, &own_trace, &parts);
    drop(parts);
    books.judge(verdict)
}
