//! Counts what the calls of `logcases` gave.

use crate::compare::tally::row::{shown_together, Row};
use crate::listings::logs::Call;

/// Every answer that reading an entry, and reading a number, can give; and every kind.
const ENTRY_ANSWERS: [u32; 6] = [0, 30, 31, 32, 33, 34];
const NUMBER_ANSWERS: [u32; 4] = [0, 30, 31, 32];
const ALL_KINDS: [u32; 8] = [0, 1, 2, 3, 4, 5, 6, 7];

/// What the calls of `logcases` gave.
pub struct Tally {
    pub calls: usize,
    entries: Row<u32>,
    numbers: Row<u32>,
    kinds: Row<u32>,
}

impl Default for Tally {
    /// Nothing seen yet.
    fn default() -> Tally {
        Tally {
            calls: 0,
            entries: Row::new("entries answered", ENTRY_ANSWERS),
            numbers: Row::new("numbers answered", NUMBER_ANSWERS),
            kinds: Row::new("kinds read", ALL_KINDS),
        }
    }
}

impl Tally {
    /// Counts one call.
    pub fn add(&mut self, call: &Call) {
        self.calls += 1;
        self.entries.add(call.entry.answer);
        self.numbers.add(call.number.answer);
        if call.entry.answer == 0 {
            self.kinds.add(call.entry.kind);
        }
    }

    /// The counts in words, and whether every possible answer and kind occurred.
    pub fn shown(&self) -> (String, bool) {
        let rows = [&self.entries, &self.numbers, &self.kinds];
        shown_together(rows.map(Row::shown))
    }
}
