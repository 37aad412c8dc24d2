//! Traces of logs longer than 64 KiB, whose entries lie across the multiples of 65,536 bytes.

use crate::inputs::input::Input;
use crate::inputs::rng::Rng;
use crate::inputs::trace::random::{make_calls, HEAD_MAKERS};
use crate::inputs::trace::scripts_v830::{set_up, MEMORY, NUMBER, SOFTWARE_TRIGGER, TRIGGERS};
use crate::listings::trace_head::{input_of, v830, Head, HeadSwitches};
use crate::model::module::Call;

/// What a program may well read at a time.
pub const EDGE: usize = 65_536;

/// The longest entry there is, of ten bytes, and what it asks of any module.
pub const LONGEST: Call = Call::Write(65_535, 32, u32::MAX);

/// All long inputs, from the seed.
pub fn long_traces(seed: u64) -> Vec<Input> {
    let mut rng = Rng::new(seed);
    let mut inputs = Vec::new();
    for (module, ..) in HEAD_MAKERS {
        for shift in 0..LONGEST.bytes().len() {
            let name = format!("{}, the longest entries, shifted by {}", module, shift);
            inputs.push(Input::new(name, shifted(module, shift)));
        }
        for cut in [0, 1, 2] {
            let mut bytes = joined_runs(&mut rng, module, EDGE + 400);
            bytes.truncate(EDGE + cut);
            let name = format!("{}, cut at {} bytes", module, bytes.len());
            inputs.push(Input::new(name, bytes));
        }
        let bytes = joined_runs(&mut rng, module, 2 * EDGE + 1_000);
        inputs.push(Input::new(format!("{}, over two edges", module), bytes));
    }
    let bytes = input_of(&v830(13, 7, 1), &many_triggers(), &[]);
    inputs.push(Input::new("V830, 66,000 triggers", bytes));
    for (name, enable, control) in [("33 words", u32::MAX, 0xA1), ("one word", 1 << 17, 0x01)] {
        let name = format!("V830, the largest memory full of events of {}", name);
        let calls = full_memory(32_768, enable, control);
        inputs.push(Input::new(name, input_of(&v830(3, 32_768, 1), &calls, &[])));
    }
    inputs
}

/// A memory of so many words filled with events until one is refused, read a little, and filled again
/// over its end.
pub fn full_memory(words: u32, enable: u32, control: u32) -> Vec<Call> {
    let mut calls = set_up(enable, control);
    let length = enable.count_ones() + u32::from(control & 0x20 != 0);
    for turn in 0..=words / length {
        if turn % 8 == 0 {
            calls.push(Call::Pulses(17, turn % 300));
        }
        calls.push(Call::Trigger);
    }
    calls.push(NUMBER);
    calls.extend((0..2 * length + 9).map(|_| MEMORY));
    calls.extend([NUMBER, Call::Test, SOFTWARE_TRIGGER, Call::Test]);
    calls.extend([SOFTWARE_TRIGGER, SOFTWARE_TRIGGER, NUMBER, MEMORY]);
    calls
}

/// More accepted triggers than 16 bits count, by line and by register in turn, each an event of one
/// word, its header. All is read before the memory is full, and all are one stretch of the ledger.
pub fn many_triggers() -> Vec<Call> {
    let mut calls = set_up(0, 0xA1);
    for turn in 0..66_000 {
        calls.push([Call::Trigger, SOFTWARE_TRIGGER][turn % 2]);
        if turn % 5 == 4 {
            calls.extend([MEMORY; 5]);
        }
    }
    calls.extend([Call::Trigger, SOFTWARE_TRIGGER, TRIGGERS, NUMBER, MEMORY]);
    calls
}

/// A head of this module whose start is accepted, with counts that pulses soon bring far.
fn plain_head(module: &str) -> Head {
    let (switches, channels, all_ones) = match module {
        "V260" => (HeadSwitches::V260([0x0030, 0xFFFF, 1, 5]), 16, 0xFF_FFFF),
        "V560" => (HeadSwitches::V560([0x06]), 16, u32::MAX),
        _ => (HeadSwitches::V830([21, 50]), 32, u32::MAX),
    };
    let mut counts = vec![all_ones; channels];
    counts[5] = all_ones / 2 - 100;
    counts[9] = all_ones / 2 - 100;
    Head { switches, counts }
}

/// One-byte entries, then the longest ones over the edge, then pulses.
fn shifted(module: &str, shift: usize) -> Vec<u8> {
    let mut bytes = plain_head(module).bytes();
    bytes.extend([2, 4].iter().cycle().take(shift));
    while bytes.len() < EDGE + 100 {
        bytes.extend(LONGEST.bytes());
    }
    for channel in 0..16 {
        bytes.extend(Call::Pulses(channel, 150).bytes());
    }
    bytes
}

/// The head of a module and the calls of many random runs, to so many bytes and a few more.
fn joined_runs(rng: &mut Rng, module: &str, length: usize) -> Vec<u8> {
    let head = plain_head(module);
    let mut bytes = head.bytes();
    add_runs(rng, &head, length, &mut bytes);
    bytes
}

/// Adds the calls of many random runs, one behind the other, up to so many bytes and a few more.
pub fn add_runs(rng: &mut Rng, head: &Head, length: usize, bytes: &mut Vec<u8>) {
    while bytes.len() < length {
        for call in make_calls(rng, head, 100) {
            bytes.extend(call.bytes());
        }
    }
}

#[cfg(test)]
mod tests {
    use super::*;
    use crate::listings::trace::entries_from;
    use crate::listings::trace_head::read_head;

    #[test]
    fn every_byte_of_an_entry_meets_the_edge() {
        for (module, ..) in HEAD_MAKERS {
            let mut met = [false; 10];
            for shift in 0..10 {
                let bytes = shifted(module, shift);
                let (_, place) = read_head(&bytes).expect("a good head");
                // The edge of the whole input, and that of the log by itself.
                for edge in [EDGE, place + EDGE] {
                    let (entries, _) = entries_from(&bytes, place);
                    let at = entries.iter().rposition(|entry| entry.place <= edge);
                    let begins = entries[at.expect("entries before the edge")].place;
                    if edge == EDGE {
                        met[edge - begins] = true;
                    }
                    assert!(edge - begins < 10);
                }
            }
            assert_eq!(met, [true; 10], "{}", module);
        }
    }
}
