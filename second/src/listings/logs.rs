//! The listings `logcases` and `entries` of docs/FORMATS.md, made by a log reader.

use crate::listings::end::{put_end, End};
use crate::listings::head::head_numbers;
use crate::model::log::{self, Entry, Number, LOG_ENDS};
use std::fmt::Write;

pub const CASES_TITLE: &str = "answer kind first second third place number value after\n";
pub const ENTRIES_TITLE: &str = "place kind first second third next\n";

/// The largest start and the largest length that a case may have.
pub const LARGEST_START: u32 = 65_535;
pub const LARGEST_LENGTH: u32 = 60_000;

/// A reader of numbers and entries: this program's own, or a wrong one in a test.
pub struct Reader<'a> {
    pub number: &'a dyn Fn(&[u8], usize) -> Number,
    pub entry: &'a dyn Fn(&[u8], usize) -> Entry,
}

/// This program's own reader.
pub const OWN_READER: Reader = Reader {
    number: &log::read_number,
    entry: &log::read_entry,
};

/// What one place of a case gives: the entry there and the number there.
pub struct Call {
    pub entry: Entry,
    pub number: Number,
}

/// The calls of one case, from `start` on, the refused one last.
pub fn calls(reader: &Reader, start: usize, bytes: &[u8]) -> Vec<Call> {
    let mut calls = Vec::new();
    let mut place = start;
    loop {
        let entry = (reader.entry)(bytes, place);
        let number = (reader.number)(bytes, place);
        calls.push(Call { entry, number });
        if entry.answer != 0 {
            return calls;
        }
        place = entry.place;
    }
}

/// Adds the line of one call to the listing.
pub fn put_call(listing: &mut String, call: &Call) {
    let Entry {
        answer,
        kind,
        arguments: [first, second, third],
        place,
    } = call.entry;
    let number = call.number;
    writeln!(
        listing,
        "{} {} {} {} {} {} {} {} {}",
        answer, kind, first, second, third, place, number.answer, number.value, number.place
    )
    .expect("a String takes every line");
}

/// The case at `place`: its start, its bytes and the place after it.
fn case_at(input: &[u8], place: usize) -> Result<(usize, &[u8], usize), u32> {
    let largest = [LARGEST_START, LARGEST_LENGTH];
    let ([start, length], next) = head_numbers(input, place, &largest)?;
    let after = next + length as usize;
    let bytes = input.get(next..after).ok_or(LOG_ENDS)?;
    Ok((start as usize, bytes, after))
}

/// The whole `logcases` listing of an input that ended so.
pub fn list_cases(input: &[u8], end: End, reader: &Reader) -> String {
    let mut listing = String::from(CASES_TITLE);
    let mut place = 0;
    let mut fault = None;
    while place < input.len() {
        match case_at(input, place) {
            Ok((start, bytes, after)) => {
                for call in calls(reader, start, bytes) {
                    put_call(&mut listing, &call);
                }
                place = after;
            }
            Err(answer) => {
                fault = Some((answer, place));
                break;
            }
        }
    }
    put_end(&mut listing, fault, end);
    listing
}

/// The whole `entries` listing of a log that ended so.
pub fn list_entries(bytes: &[u8], end: End, reader: &Reader) -> String {
    let mut listing = String::from(ENTRIES_TITLE);
    let mut place = 0;
    let mut fault = None;
    while place < bytes.len() {
        let entry = (reader.entry)(bytes, place);
        if entry.answer != 0 {
            fault = Some((entry.answer, place));
            break;
        }
        let [first, second, third] = entry.arguments;
        writeln!(
            listing,
            "{} {} {} {} {} {}",
            place, entry.kind, first, second, third, entry.place
        )
        .expect("a String takes every line");
        place = entry.place;
    }
    put_end(&mut listing, fault, end);
    listing
}

#[cfg(test)]
mod tests {
    use super::*;

    /// The `logcases` listing of an input, less its first line.
    fn cases(input: &[u8]) -> String {
        list_cases(input, End::Whole, &OWN_READER)
            .strip_prefix("answer kind first second third place number value after\n")
            .expect("the first line")
            .to_string()
    }

    #[test]
    fn a_case_line_by_line() {
        assert_eq!(cases(&[]), "");
        // Start 0, six bytes: 300 pulses on channel 5, TEST, kind 8.
        let pulses = [0, 6, 0, 5, 0xAC, 0x02, 2, 8];
        assert_eq!(
            cases(&pulses),
            "0 0 5 300 0 4 0 0 1\n0 2 0 0 0 5 0 2 5\n33 0 0 0 0 5 0 8 6\n"
        );
        // Start 3 of a log of one byte: past the end.
        assert_eq!(cases(&[3, 1, 2]), "30 0 0 0 0 3 30 0 3\n");
    }

    #[test]
    fn faults_of_a_head() {
        let empty_case = "30 0 0 0 0 0 30 0 0\n";
        assert_eq!(cases(&[0, 0, 0]), format!("{}fault 30 2\n", empty_case));
        assert_eq!(cases(&[0, 2, 9]), "fault 30 0\n");
        assert_eq!(cases(&[0x80, 0, 0]), "fault 31 0\n");
        assert_eq!(cases(&[0, 0xFF, 0xFF, 0xFF, 0xFF, 0x7F]), "fault 32 0\n");
        assert_eq!(cases(&[0x80, 0x80, 4]), "fault 34 0\n");
        assert_eq!(cases(&[0, 0xE1, 0xD4, 0x03]), "fault 34 0\n");
        assert_eq!(cases(&[0, 0xE0, 0xD4, 0x03]), "fault 30 0\n");
        assert_eq!(cases(&[0xFF, 0xFF, 3, 0]), "30 0 0 0 0 65535 30 0 65535\n");
    }

    #[test]
    fn entries_and_their_fault() {
        let listing = list_entries(&[1, 1, 6, 2, 16, 9, 0, 32], End::Whole, &OWN_READER);
        assert_eq!(
            listing,
            "place kind first second third next\n0 1 1 0 0 2\n2 6 2 16 9 6\nfault 34 6\n"
        );
    }
}
