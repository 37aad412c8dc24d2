//! Logs of `replay` that are the same in every comparison: those of document 02, those of document
//! 01, every fault in every kind of entry, and the memory filled by events of every length.

use crate::inputs::input::Input;
use crate::inputs::logs::entries::values_outside;
use crate::inputs::logs::whole::ENDS;
use crate::inputs::numbers::padded;
use crate::inputs::trace::fixed_v830::marked_830;
use crate::inputs::trace::long::full_memory;
use crate::inputs::trace::scripts_v830::{scripts_830, set_up, MEMORY, NUMBER, SOFTWARE_TRIGGER};
use crate::listings::replay::REPLAY_WORDS;
use crate::model::log::{Argument, KINDS};
use crate::model::module::Call::{self, *};
use crate::model::write_log::{entry_bytes, shortest};

/// The logs that are written down with their listings, in document 02 or where this was asked for.
const MUST_SHOW: [&[u8]; 4] = [&[0, 0, 4, 2, 4], &[7], &[], &[0, 0x20]];

/// The bytes of the entries that ask for these calls.
pub fn log_of(calls: &[Call]) -> Vec<u8> {
    calls.iter().flat_map(Call::bytes).collect()
}

/// All fixed logs.
pub fn fixed_replays() -> Vec<Input> {
    let mut inputs = Vec::new();
    for log in MUST_SHOW {
        inputs.push(Input::new("a log that must be shown", log.to_vec()));
    }
    for (name, _, calls) in marked_830() {
        inputs.push(Input::new(name, log_of(&calls)));
    }
    for (name, calls) in scripts_830() {
        inputs.push(Input::new(name, log_of(&calls)));
    }
    for (number, end) in ENDS.into_iter().enumerate() {
        let name = format!("the end {:02X?}", end);
        inputs.push(Input::new(name, behind_entries(number, end)));
    }
    for (number, (name, end)) in every_fault().into_iter().enumerate() {
        inputs.push(Input::new(name, behind_entries(number, &end)));
    }
    for length in 1..=33 {
        let (enable, control) = settings_of(length);
        let calls = full_memory(REPLAY_WORDS, enable, control);
        let name = format!("the memory full of events of {} words", length);
        inputs.push(Input::new(name, log_of(&calls)));
    }
    inputs.push(Input::new(
        "every word of the memory",
        log_of(&every_word()),
    ));
    inputs
}

/// A few entries, and this end.
fn behind_entries(number: usize, end: &[u8]) -> Vec<u8> {
    let calls = [Pulses(9, 300), Read(0x1024, 32), Trigger, ManClr, Test];
    [&log_of(&calls[..number % 6]), end].concat()
}

/// Channel Enable and Control of events of so many words: header and short format by turns.
fn settings_of(length: u32) -> (u32, u32) {
    let header = length == 33 || length > 1 && length % 3 == 0;
    let channels = length - u32::from(header);
    // The highest of them is channel 17, which gets the pulses, or they go round from there.
    let enable = (u32::MAX << (32 - channels)).rotate_left(18);
    let short = if length % 2 == 0 { 0x04 } else { 0 };
    (enable, 0x01 | short | if header { 0xA0 } else { 0 })
}

/// The memory filled, read to its last word and beyond, and used again from its beginning.
fn every_word() -> Vec<Call> {
    let mut calls = set_up(u32::MAX, 0x81);
    for turn in 0..512 {
        calls.extend([Pulses(turn % 32, turn % 200), Test, Trigger]);
    }
    calls.extend([SOFTWARE_TRIGGER, NUMBER]);
    for word in 0..REPLAY_WORDS {
        calls.push(Read(4 * (word % 1_024), 32));
    }
    calls.extend([MEMORY, NUMBER, Pulses(31, 4), Trigger, NUMBER, MEMORY]);
    calls
}

/// Every way in which each number of an entry of each kind can be faulty, and its name.
pub fn every_fault() -> Vec<(String, Vec<u8>)> {
    let no_kind = [("32", &[0xFF, 0xFF, 0xFF, 0xFF, 0x10][..]), ("33", &[8])];
    let no_kind = no_kind.map(|(fault, end)| (format!("no kind: {}", fault), end.to_vec()));
    let mut all = no_kind.to_vec();
    for kind in 0..KINDS.len() {
        let cut = vec![0x80 | kind as u8];
        all.push((format!("kind {}: 30 inside it", kind), cut));
        all.push((format!("kind {}: 31", kind), padded(kind as u32, 1)));
        for (position, argument) in KINDS[kind].iter().enumerate() {
            // Channel 1, line 1 or offset 1, and width 16.
            let front = entry_bytes(kind, &[1, 16][..position]);
            for (fault, number) in faulty_numbers(*argument) {
                let name = format!("kind {}, number {}: {}", kind, position + 1, fault);
                all.push((name, [&front[..], &number].concat()));
            }
        }
    }
    all
}

/// An argument with each fault that it can have.
fn faulty_numbers(argument: Argument) -> Vec<(&'static str, Vec<u8>)> {
    let mut all = vec![
        ("30 before it", vec![]),
        ("30 inside it", vec![0x81]),
        ("31", vec![0x81, 0x00, 0x02]),
        ("32", vec![0xFF, 0xFF, 0xFF, 0xFF, 0x10, 0x02]),
    ];
    let outside = values_outside(argument).first();
    all.extend(outside.map(|value| ("34", shortest(*value))));
    all
}

#[cfg(test)]
mod tests {
    use super::*;
    use crate::listings::replay::own_replay;
    use crate::listings::trace::entries_from;

    #[test]
    fn every_fault_is_the_one_it_is_called() {
        let all = every_fault();
        assert_eq!(all.len(), 2 + 8 * 2 + 8 * 4 + 7);
        for (name, bytes) in all {
            let (entries, fault) = entries_from(&bytes, 0);
            let (answer, place) = fault.expect("a fault");
            assert_eq!((entries.len(), place), (0, 0), "{}", name);
            assert!(name.contains(&format!(": {}", answer)), "{}", name);
        }
    }

    #[test]
    fn events_of_every_length_fill_the_memory_to_its_last_word() {
        for length in 1..=33 {
            let (enable, control) = settings_of(length);
            let header = u32::from(control & 0x20 != 0);
            assert_eq!(enable.count_ones() + header, length);
            let mut calls = full_memory(REPLAY_WORDS, enable, control);
            calls.truncate(calls.iter().position(|call| *call == NUMBER).expect("one"));
            let listing = own_replay(&log_of(&calls));
            let refused = listing.lines().filter(|line| line.ends_with(" 9 0"));
            assert_eq!(refused.count(), 1, "{}", length);
            assert!(listing.ends_with(" 9 0\n"), "{}", length);
        }
    }
}
