//! `compare replay`: bench logs of a V830, each in a run of COMMAND of its own.

use crate::compare::difference::Verdict;
use crate::compare::run::Program;
use crate::compare::runs::{compare_parts, Counted, Part};
use crate::compare::shrink::Smaller;
use crate::compare::shrink_trace::smaller_replays;
use crate::compare::tally::edges::EdgeTally;
use crate::compare::tally::row::{shown_together, Row};
use crate::compare::tally::v830::V830Tally;
use crate::compare::trace::FAULTS;
use crate::inputs::replay::cut::{cut_replays, logs_in_pieces};
use crate::inputs::replay::edges::edge_replays;
use crate::inputs::replay::fixed::fixed_replays;
use crate::inputs::replay::long::long_replays;
use crate::inputs::replay::random::make_replays;
use crate::inputs::trace::long::EDGE;
use crate::listings::replay::{own_replay, replay_head};
use crate::listings::trace::entries_from;
use crate::model::log::{number_at, KINDS, KIND_TOO_LARGE, OUT_OF_RANGE};
use crate::model::module::Call;
use std::fmt::{self, Display, Formatter};

/// The number of random whole logs unless another is asked for.
pub const DEFAULT_LOGS: usize = 1_200;

/// The names of the kinds that have arguments, which so can be faulty behind their kind.
const NAMES: [(u32, &str); 4] = [(0, "pulse"), (1, "veto"), (5, "read"), (6, "write")];

/// A fault and the kind of entry that it is in: none if it is in the kind itself.
#[derive(Clone, Copy, Debug, PartialEq, Eq)]
struct FaultIn(u32, Option<u32>);

impl Display for FaultIn {
    /// The fault and the kind in words.
    fn fmt(&self, formatter: &mut Formatter) -> fmt::Result {
        let name = NAMES.iter().find(|(kind, _)| Some(*kind) == self.1);
        let name = name.map_or("kind", |(_, name)| name);
        write!(formatter, "{} in {}", self.0, name)
    }
}

impl FaultIn {
    /// The fault at this place of a log.
    fn at(log: &[u8], fault: u32, place: usize) -> FaultIn {
        let kind = number_at(log, place).ok().map(|(kind, _)| kind);
        FaultIn(fault, kind.filter(|kind| KINDS.len() > *kind as usize))
    }

    /// Every fault of every kind of entry that can have it.
    fn every() -> Vec<FaultIn> {
        let in_argument = |fault: &u32| *fault != KIND_TOO_LARGE;
        let in_kind = |fault: &u32| *fault != OUT_OF_RANGE;
        let mut all = Vec::new();
        for (kind, _) in NAMES {
            let faults = FAULTS.into_iter().filter(in_argument);
            all.extend(faults.map(|fault| FaultIn(fault, Some(kind))));
        }
        let faults = FAULTS.into_iter().filter(in_kind);
        all.extend(faults.map(|fault| FaultIn(fault, None)));
        all
    }
}

/// What the logs gave.
pub struct ReplayTally {
    entries: usize,
    /// The multiples of a buffer's length inside the logs, and inside their listings.
    read_edges: usize,
    written_edges: usize,
    splits: EdgeTally,
    module: V830Tally,
    faults: Row<u32>,
    faults_in: Row<FaultIn>,
    logs: Row<&'static str>,
}

impl Default for ReplayTally {
    /// Nothing seen yet.
    fn default() -> ReplayTally {
        ReplayTally {
            entries: 0,
            read_edges: 0,
            written_edges: 0,
            splits: EdgeTally::default(),
            module: V830Tally::of_replay(),
            faults: Row::new("faults of logs", FAULTS),
            faults_in: Row::new("faults in entries", FaultIn::every()),
            logs: Row::new("logs", ["empty", "60 entries or more", "with less"]),
        }
    }
}

impl ReplayTally {
    /// The counts of the splits in words, and whether every one occurred.
    fn shown_splits(&self) -> (String, bool) {
        self.splits.shown()
    }
}

/// The multiples of a buffer's length behind which so many bytes go on.
fn edges(bytes: usize) -> usize {
    bytes.saturating_sub(1) / EDGE
}

impl Counted for ReplayTally {
    const WHAT: &'static str = "entries";
    const SMALLER: Smaller = smaller_replays;

    /// Counts what one log gives.
    fn add(&mut self, log: &[u8]) {
        let (entries, fault) = entries_from(log, 0);
        self.entries += entries.len();
        self.read_edges += edges(log.len());
        self.written_edges += edges(own_replay(log).len());
        self.splits.add(log, &entries, fault);
        self.module
            .add_run(&replay_head(), entries.iter().map(Call::of));
        self.logs.add(match entries.len() {
            0 => "empty",
            1..=59 => "with less",
            _ => "60 entries or more",
        });
        if let Some((answer, place)) = fault {
            self.faults.add(answer);
            self.faults_in.add(FaultIn::at(log, answer, place));
        }
    }

    /// How many entries were read.
    fn events(&self) -> usize {
        self.entries
    }

    /// The counts in words, and whether every possible thing occurred.
    fn shown(&self) -> (String, bool) {
        shown_together([
            self.module.shown(),
            self.faults.shown(),
            self.faults_in.shown(),
            self.logs.shown(),
        ])
    }

    /// The entries and the edges of all parts.
    fn total(parts: &[ReplayTally]) -> String {
        let sum = |count: fn(&ReplayTally) -> usize| -> usize { parts.iter().map(count).sum() };
        format!(
            ", {} entries, {} edges of 65,536 bytes in logs and {} in listings",
            sum(|part| part.entries),
            sum(|part| part.read_edges),
            sum(|part| part.written_edges)
        )
    }
}

/// Compares COMMAND's `replay` listing of every log with this program's own; `program` is COMMAND with
/// long logs as files, which fill its buffer, and `in_pieces` is COMMAND fed in pieces.
pub fn compare_replay(program: &Program, in_pieces: &Program, seed: u64, cases: usize) -> Verdict {
    let part = |name, inputs, needed| Part {
        program,
        name,
        inputs,
        needed,
    };
    let parts = [
        part("fixed", fixed_replays(), Some(Counted::shown)),
        part("random", make_replays(seed, cases), Some(Counted::shown)),
        part("cut", cut_replays(seed), None),
        Part {
            program: in_pieces,
            ..part("fed in pieces", logs_in_pieces(seed), None)
        },
        part("long", long_replays(seed), None),
        part("edge", edge_replays(), Some(ReplayTally::shown_splits)),
    ];
    compare_parts::<ReplayTally>(seed, &own_replay, &parts)
}
