//! Counts how the longest entries of `replay`'s logs lie over the edges of a buffer.

use crate::compare::tally::row::{shown_together, Row};
use crate::inputs::trace::long::{EDGE, LONGEST};
use crate::model::log::{Entry, LOG_ENDS};
use std::fmt::{self, Display, Formatter};

/// The length of the longest entry, and that of the longest one that a V830 accepts.
const LENGTHS: [usize; 2] = [10, 9];

/// So many bytes of an entry lie before an edge, and so many behind it.
#[derive(Clone, Copy, Debug, PartialEq, Eq)]
struct Split(usize, usize);

impl Display for Split {
    /// Both numbers.
    fn fmt(&self, formatter: &mut Formatter) -> fmt::Result {
        write!(formatter, "{}+{}", self.0, self.1)
    }
}

impl Split {
    /// Every split of a whole entry of these lengths.
    fn every() -> Vec<Split> {
        let of = |length| (1..length).map(move |before| Split(before, length - before));
        LENGTHS.into_iter().flat_map(of).collect()
    }

    /// Every split of a longest entry that is cut at the edge or behind it.
    fn every_cut() -> Vec<Split> {
        let of = |before| (0..LENGTHS[0] - before).map(move |behind| Split(before, behind));
        (1..LENGTHS[0]).flat_map(of).collect()
    }

    /// How the entry over an edge is split, if one lies over it.
    fn over(edge: usize, entries: &[Entry]) -> Option<Split> {
        let at = entries.partition_point(|entry| entry.place <= edge);
        let end = entries.get(at)?.place;
        let begin = at.checked_sub(1).map_or(0, |before| entries[before].place);
        (begin < edge).then_some(Split(edge - begin, end - edge))
    }

    /// How the entry over the second edge is split, if the bytes before the first one are kept in the
    /// buffer and read on behind.
    fn over_kept(entries: &[Entry]) -> Option<Split> {
        let kept = Split::over(EDGE, entries).map_or(0, |split| split.0);
        Split::over(2 * EDGE - kept, entries)
    }

    /// How an entry is split that begins before the first edge and is cut, if the log ends in one.
    fn cut(log: &[u8], fault: Option<(u32, usize)>) -> Option<Split> {
        let (_, begin) = fault.filter(|(answer, _)| *answer == LOG_ENDS)?;
        let longest = LONGEST.bytes().starts_with(&log[begin..]);
        let over = longest && begin < EDGE && log.len() >= EDGE;
        over.then(|| Split(EDGE - begin, log.len() - EDGE))
    }
}

/// The splits of all logs.
pub struct EdgeTally {
    first: Row<Split>,
    /// At twice the buffer's length, and at that less the bytes that are kept.
    second: Row<Split>,
    second_kept: Row<Split>,
    cut: Row<Split>,
}

impl Default for EdgeTally {
    /// Nothing seen yet.
    fn default() -> EdgeTally {
        EdgeTally {
            first: Row::new("over edge 1", Split::every()),
            second: Row::new("over edge 2", Split::every()),
            second_kept: Row::new("over edge 2, kept", Split::every()),
            cut: Row::new("cut over edge 1", Split::every_cut()),
        }
    }
}

impl EdgeTally {
    /// Counts the splits of one log, of which these are the entries and the fault.
    pub fn add(&mut self, log: &[u8], entries: &[Entry], fault: Option<(u32, usize)>) {
        for (row, split) in [
            (&mut self.first, Split::over(EDGE, entries)),
            (&mut self.second, Split::over(2 * EDGE, entries)),
            (&mut self.second_kept, Split::over_kept(entries)),
            (&mut self.cut, Split::cut(log, fault)),
        ] {
            split.into_iter().for_each(|split| row.add(split));
        }
    }

    /// The counts in words, and whether every split occurred.
    pub fn shown(&self) -> (String, bool) {
        shown_together([
            self.first.shown(),
            self.second.shown(),
            self.second_kept.shown(),
            self.cut.shown_least(),
        ])
    }
}

#[cfg(test)]
mod tests {
    use super::*;
    use crate::inputs::replay::edges::edge_replays;
    use crate::listings::trace::entries_from;

    /// A log, its entries and its fault.
    type Parsed = (Vec<u8>, Vec<Entry>, Option<(u32, usize)>);

    /// That without these logs this is said to be missing, or nothing if it is empty.
    fn assert_missing(all: &[Parsed], left_out: impl Fn(&Parsed) -> bool, missing: &str) {
        let mut tally = EdgeTally::default();
        for (log, entries, fault) in all.iter().filter(|parsed| !left_out(parsed)) {
            tally.add(log, entries, *fault);
        }
        let (words, complete) = tally.shown();
        let told = format!("never occurred: {}\n", missing);
        assert_eq!(complete, missing.is_empty(), "{}", words);
        assert!(complete || words.contains(&told), "{}", words);
    }

    #[test]
    fn no_split_can_be_left_out() {
        let parsed = |log: Vec<u8>| {
            let (entries, fault) = entries_from(&log, 0);
            (log, entries, fault)
        };
        let logs = edge_replays().into_iter().map(|input| input.bytes);
        let all: Vec<Parsed> = logs.map(parsed).collect();
        assert_missing(&all, |_| false, "");
        for split in Split::every_cut() {
            let is_cut = |(log, _, fault): &Parsed| Split::cut(log, *fault) == Some(split);
            assert_missing(&all, is_cut, &format!("cut over edge 1 {}", split));
        }
        for split in Split::every() {
            for (number, edge) in [(1, EDGE), (2, 2 * EDGE)] {
                let is_laid = |parsed: &Parsed| Split::over(edge, &parsed.1) == Some(split);
                assert_missing(&all, is_laid, &format!("over edge {} {}", number, split));
            }
            let is_laid = |parsed: &Parsed| Split::over_kept(&parsed.1) == Some(split);
            assert_missing(&all, is_laid, &format!("over edge 2, kept {}", split));
        }
    }

    #[test]
    fn splits_are_seen_as_they_are() {
        let log = [
            &[2; 65_533][..],
            &LONGEST.bytes(),
            &[2; 65_526],
            &LONGEST.bytes(),
        ]
        .concat();
        let entries = entries_from(&log, 0).0;
        assert_eq!(Split::over(EDGE, &entries), Some(Split(3, 7)));
        assert_eq!(Split::over(2 * EDGE, &entries), Some(Split(3, 7)));
        assert_eq!(Split::over(2 * EDGE - 3, &entries), None);
        assert_eq!(Split::over(3 * EDGE, &entries), None);
        assert_eq!(Split::over(65_533, &entries), None);
        let cut = &log[..65_538];
        assert_eq!(Split::cut(cut, entries_from(cut, 0).1), Some(Split(3, 2)));
        let before = &log[..65_535];
        assert_eq!(Split::cut(before, entries_from(before, 0).1), None);
    }
}
