//! Tests of listings that a failed read cuts, reckoned by hand.

use crate::listings::blocks::BLOCKS_TITLE;
use crate::listings::end::{is_cut, read_all, End};
use crate::listings::kind::{Kind, KINDS};
use crate::listings::logs::{CASES_TITLE, ENTRIES_TITLE};
use crate::listings::replay::REPLAY_TITLE;
use crate::listings::trace_head::{v560, v830, TITLE_560, TITLE_830};
use std::io::{self, Read};

/// A reader that gives these bytes, so many at a time, and then fails with this error of the system.
struct Failing<'a> {
    bytes: &'a [u8],
    at_a_time: usize,
    number: i32,
}

impl Read for Failing<'_> {
    /// Gives the next bytes, or the error.
    fn read(&mut self, buffer: &mut [u8]) -> io::Result<usize> {
        if self.bytes.is_empty() {
            return Err(io::Error::from_raw_os_error(self.number));
        }
        let most = self.at_a_time.min(buffer.len()).min(self.bytes.len());
        let (given, rest) = self.bytes.split_at(most);
        buffer[..most].copy_from_slice(given);
        self.bytes = rest;
        Ok(most)
    }
}

/// The listing of a standard input that gives these bytes and then fails with 11.
fn cut(kind: Kind, bytes: &[u8]) -> String {
    let mut input = Failing {
        bytes,
        at_a_time: 3,
        number: 11,
    };
    let (read, end) = read_all(&mut input);
    kind.listing(&read, end)
}

/// The listing, which the failed read must have cut, less its title and its last line.
fn before_cut(kind: Kind, title: &str, bytes: &[u8]) -> String {
    let listing = cut(kind, bytes);
    assert!(is_cut(&listing), "{}", listing);
    let lines = listing.strip_prefix(title).expect("the title");
    let lines = lines.strip_suffix("failed read 11\n").expect("the failure");
    lines.to_string()
}

/// A line of these first numbers and then 0s, so many numbers in all.
fn line(first: &str, numbers: usize) -> String {
    let zeros = numbers - first.split(' ').count();
    format!("{}{}\n", first, " 0".repeat(zeros))
}

#[test]
fn the_bytes_before_a_failure_are_read_and_its_number_told() {
    for (at_a_time, number) in [(1, 5), (3, 11), (100, 21)] {
        let bytes = &[7; 50];
        let mut input = Failing {
            bytes,
            at_a_time,
            number,
        };
        assert_eq!(read_all(&mut input), (vec![7; 50], End::Failed(number)));
    }
    assert_eq!(read_all(&mut &[7, 8][..]), (vec![7, 8], End::Whole));
    let mut fails = Failing {
        bytes: &[],
        at_a_time: 1,
        number: 21,
    };
    let (read, end) = read_all(&mut fails);
    let listing = Kind::Replay.listing(&read, end);
    assert_eq!(listing, "entry answer value\nfailed read 21\n");
}

#[test]
fn a_failure_at_once_leaves_what_every_listing_begins_with() {
    for (name, kind) in KINDS {
        let title = match kind {
            Kind::Logs => CASES_TITLE,
            Kind::Entries => ENTRIES_TITLE,
            Kind::Replay => REPLAY_TITLE,
            // A fault of their heads stands alone, so they have no title before a whole head.
            Kind::Blocks | Kind::Makeblock | Kind::Trace => "",
        };
        assert_eq!(before_cut(kind, title, &[]), "", "{}", name);
    }
}

#[test]
fn entries_and_replays_are_cut_behind_their_last_whole_entry() {
    // Four pulses on channel 0, TEST, a write of ten bytes.
    let write = [6, 0xFF, 0xFF, 0x03, 0x20, 0xFF, 0xFF, 0xFF, 0xFF, 0x0F];
    let log = [&[0, 0, 4, 2][..], &write].concat();
    for length in 0..=log.len() {
        let (entries, replayed) = match length {
            0..=2 => ("", ""),
            3 => ("0 0 0 4 0 3\n", "1 0 0\n"),
            4..=13 => ("0 0 0 4 0 3\n3 2 0 0 0 4\n", "1 0 0\n2 0 0\n"),
            _ => (
                "0 0 0 4 0 3\n3 2 0 0 0 4\n4 6 65535 32 4294967295 14\n",
                "1 0 0\n2 0 0\n3 1 0\n",
            ),
        };
        let log = &log[..length];
        assert_eq!(before_cut(Kind::Entries, ENTRIES_TITLE, log), entries);
        assert_eq!(before_cut(Kind::Replay, REPLAY_TITLE, log), replayed);
    }
}

#[test]
fn a_fault_before_the_failure_ends_the_listing() {
    let faults: [(&[u8], &str); 5] = [
        (&[2, 8], "fault 33 1\n"),
        (&[2, 0, 32], "fault 34 1\n"),
        (&[2, 5, 0x80, 0], "fault 31 1\n"),
        (&[2, 0x80, 0x80, 0x80, 0x80, 0x10], "fault 32 1\n"),
        (&[2, 8, 2, 2, 0], "fault 33 1\n"),
    ];
    for (log, fault) in faults {
        let replayed = format!("{}1 0 0\n{}", REPLAY_TITLE, fault);
        assert_eq!(cut(Kind::Replay, log), replayed);
        let entries = format!("{}0 2 0 0 0 1\n{}", ENTRIES_TITLE, fault);
        assert_eq!(cut(Kind::Entries, log), entries);
        assert!(!is_cut(&replayed) && !is_cut(&entries));
    }
    for kind in [Kind::Blocks, Kind::Makeblock] {
        assert_eq!(cut(kind, &[1, 2]), "fault 34 0\n");
        assert_eq!(cut(kind, &[0x80, 0]), "fault 31 0\n");
    }
    assert_eq!(cut(Kind::Trace, &[4]), "fault 33 0\n");
    assert_eq!(cut(Kind::Trace, &[0xB0, 4, 0x80, 2]), "fault 34 0\n");
    let cases = CASES_TITLE.to_string() + "fault 31 0\n";
    assert_eq!(cut(Kind::Logs, &[0x80, 0]), cases);
}

#[test]
fn a_case_is_listed_once_all_of_it_is_read() {
    // Start 0, two bytes: TEST and kind 8. Then start 3 of a log of one byte.
    let input = [0, 2, 2, 8, 3, 1, 2];
    let first = "0 2 0 0 0 1 0 2 1\n33 0 0 0 0 1 0 8 2\n";
    for length in 0..=input.len() {
        let listed = match length {
            0..=3 => String::new(),
            4..=6 => first.to_string(),
            _ => first.to_string() + "30 0 0 0 0 3 30 0 3\n",
        };
        let input = &input[..length];
        assert_eq!(before_cut(Kind::Logs, CASES_TITLE, input), listed);
    }
}

#[test]
fn an_event_is_listed_once_it_is_decided() {
    // Header on, short, channels 0 and 2; document 01's event, whose second datum is then of channel 3.
    let input = [
        1, 1, 5, 1, 0, 8, 0x0C, 7, 0, 0, 0, 9, 0, 0, 0x10, 1, 0, 8, 0x0C, 7, 0, 0, 0, 9, 0, 0, 0x18,
    ];
    for length in 0..3 {
        assert_eq!(cut(Kind::Blocks, &input[..length]), "failed read 11\n");
    }
    let event = line("0 0 3 1 0 1 7 0 9", 38);
    for length in 3..input.len() {
        let listed = if length < 15 { "" } else { &event };
        let given = before_cut(Kind::Blocks, BLOCKS_TITLE, &input[..length]);
        assert_eq!(given, listed, "{} bytes", length);
    }
    // A refused event is the last line, which no failure follows.
    let refused = format!("{}{}{}", BLOCKS_TITLE, event, line("3 24", 38));
    assert_eq!(cut(Kind::Blocks, &input), refused);
    // A wrong header is refused by itself, a wrong datum only in an event that is all there.
    let headless = [1, 1, 5, 0, 0, 0, 0];
    let refused = BLOCKS_TITLE.to_string() + &line("0 21", 38);
    assert_eq!(cut(Kind::Blocks, &headless), refused);
    let datum = [1, 1, 5, 1, 0, 8, 0x0C, 7, 0, 0, 0xFF];
    assert_eq!(before_cut(Kind::Blocks, BLOCKS_TITLE, &datum), "");
    // No words in an event: the first word is refused, and needs to be there.
    let none = [0, 0, 0, 9, 9, 9, 9];
    assert_eq!(before_cut(Kind::Blocks, BLOCKS_TITLE, &none[..6]), "");
    let refused = BLOCKS_TITLE.to_string() + &line("0 8", 38);
    assert_eq!(cut(Kind::Blocks, &none), refused);
}

#[test]
fn an_event_is_written_once_all_its_numbers_are_read() {
    let input = [&[0, 0, 1, 2, 0, 0, 0, 7][..], &[0; 31], &[9]].concat();
    for length in 0..39 {
        assert_eq!(cut(Kind::Makeblock, &input[..length]), "failed read 11\n");
    }
    for length in 39..=40 {
        assert_eq!(cut(Kind::Makeblock, &input[..length]), "0 1\n7 2\n");
    }
}

#[test]
fn a_trace_is_cut_without_its_memory() {
    // GEO 1, two words; a trigger, and four pulses on channel 0.
    let input = [&v830(1, 2, 0).bytes()[..], &[4, 0, 0, 4]].concat();
    for length in 0..36 {
        assert_eq!(cut(Kind::Trace, &input[..length]), "failed read 11\n");
    }
    let start = line("0 0 0 1 0 4294967295 0 0 2", 43);
    let trigger = line("1 7 0 1 0 4294967295 0 0 2", 43);
    let pulses = line("2 0 0 1 0 4294967295 0 0 2 0 0 4", 43);
    for length in 36..=40 {
        let listed = match length {
            36 => start.clone(),
            37..=39 => start.clone() + &trigger,
            _ => format!("{}{}{}", start, trigger, pulses),
        };
        let given = before_cut(Kind::Trace, TITLE_830, &input[..length]);
        assert_eq!(given, listed, "{} bytes", length);
    }
    // Behind a fault nothing is read, and the memory follows.
    let faulty = [&input[..37], &[8]].concat();
    let listed = format!("{}{}{}fault 33 37\nmemory 1 2\n", TITLE_830, start, trigger);
    assert_eq!(cut(Kind::Trace, &faulty), listed);
    let head = v560(0, [0; 16]).bytes();
    let start = line("0 0 0 0 0 0 0 0 0 0 1", 43);
    assert_eq!(before_cut(Kind::Trace, TITLE_560, &head), start);
}
