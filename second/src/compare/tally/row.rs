//! Rows of counts, so that a comparison that never saw a possible thing is noticed.

use std::fmt::Display;

/// How often each of the possible things was seen.
pub struct Row<T> {
    title: &'static str,
    seen: Vec<(T, usize)>,
}

impl<T: Copy + PartialEq + Display> Row<T> {
    /// A row of possible things, none of them seen yet.
    pub fn new(title: &'static str, possible: impl IntoIterator<Item = T>) -> Row<T> {
        let seen = possible.into_iter().map(|what| (what, 0)).collect();
        Row { title, seen }
    }

    /// Counts one thing, if it is a possible one.
    pub fn add(&mut self, what: T) {
        for (possible, times) in &mut self.seen {
            *times += usize::from(*possible == what);
        }
    }

    /// The counts in words, and whether every possible thing was seen.
    pub fn shown(&self) -> (String, bool) {
        let columns: Vec<String> = self
            .seen
            .iter()
            .map(|(what, times)| format!("{}: {}", what, times))
            .collect();
        self.with_missing(format!("{:<18}{}\n", self.title, columns.join("  ")))
    }

    /// The least of the counts in words, and whether every possible thing was seen.
    pub fn shown_least(&self) -> (String, bool) {
        let least = self.seen.iter().map(|(_, times)| times).min();
        let least = format!("each at least {} times", least.unwrap_or(&0));
        self.with_missing(format!("{:<18}{}\n", self.title, least))
    }

    /// The words, with those for things never seen behind them, and whether there are none.
    fn with_missing(&self, mut words: String) -> (String, bool) {
        let missing = self.seen.iter().filter(|(_, times)| *times == 0);
        for (what, _) in missing.clone() {
            words += &format!("never occurred: {} {}\n", self.title, what);
        }
        (words, missing.count() == 0)
    }
}

/// Rows as they are shown, one below the other, and whether all are complete.
pub fn shown_together<const N: usize>(rows: [(String, bool); N]) -> (String, bool) {
    let complete = rows.iter().all(|(_, complete)| *complete);
    (rows.map(|(words, _)| words).concat(), complete)
}
