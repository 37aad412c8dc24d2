//! Logs of `replay` longer than 64 KiB, or with longer listings: every kind of entry lies across the
//! edges of what may be read at a time, and every kind of line across those of what may be written.

use crate::inputs::input::Input;
use crate::inputs::replay::fixed::log_of;
use crate::inputs::rng::Rng;
use crate::inputs::trace::long::{add_runs, many_triggers, EDGE, LONGEST};
use crate::inputs::trace::scripts_v830::{set_up, ENABLE, MEMORY, NUMBER, TRIGGERS};
use crate::listings::replay::{own_replay, replay_head};
use crate::model::module::Call::{self, *};

/// The entries laid across the edges, besides the longest ones: a step that is lost or done twice there
/// shows in what follows.
const ACROSS: [Call; 4] = [
    Write(0x1124, 16, 0xFFFF),
    Pulses(30, 300),
    Read(0x0FFC, 32),
    VetoLine(true),
];

/// What is looked at behind each edge.
const LOOK: [Call; 8] = [
    Read(0x1078, 32),
    TRIGGERS,
    NUMBER,
    Read(0x1100, 32),
    MEMORY,
    Pulses(30, 5),
    Read(0x1078, 32),
    VetoLine(false),
];

/// So many lines of ten bytes are longer than two buffers.
const MANY_LINES: usize = 14_500;

/// All long logs, from the seed.
pub fn long_replays(seed: u64) -> Vec<Input> {
    let mut rng = Rng::new(seed ^ 3);
    let mut inputs = Vec::new();
    for shift in 0..LONGEST.bytes().len() {
        let name = format!("the longest entries, shifted by {}", shift);
        inputs.push(Input::new(name, shifted(shift)));
    }
    for call in ACROSS {
        for split in 0..call.bytes().len() {
            let name = format!("{:?} with {} bytes before each edge", call, split);
            inputs.push(Input::new(name, across(call, split)));
        }
    }
    for shift in 0..10 {
        let name = format!("a listing shifted by {}", shift);
        inputs.push(Input::new(name, listed(shift, MANY_LINES)));
        let name = format!("a fault line at the listing's edge, shifted by {}", shift);
        inputs.push(Input::new(name, fault_listed(shift)));
    }
    let mut log = Vec::new();
    add_runs(&mut rng, &replay_head(), 4 * EDGE, &mut log);
    inputs.push(Input::new("a log of four buffers", log));
    inputs.push(Input::new("70,000 entries of one byte", one_byte_entries()));
    let triggers = log_of(&many_triggers());
    inputs.push(Input::new("66,000 triggers", triggers));
    inputs
}

/// One-byte entries, then the longest ones over two edges, then a fault.
fn shifted(shift: usize) -> Vec<u8> {
    let mut bytes: Vec<u8> = [2, 4].into_iter().cycle().take(shift).collect();
    while bytes.len() < 2 * EDGE + 100 {
        bytes.extend(LONGEST.bytes());
    }
    bytes.extend([1, 2]);
    bytes
}

/// The places of the edges, if the `split` bytes in front of the first one are kept and read on behind.
fn edges(split: usize) -> [usize; 2] {
    [EDGE, 2 * EDGE - split]
}

/// A call with so many bytes in front of each edge.
fn across(call: Call, split: usize) -> Vec<u8> {
    laid_across(&edges(split).map(|edge| (edge, call)), split)
}

/// Calls with so many bytes in front of their edges, the others behind these, and looks behind that.
pub fn laid_across(laid: &[(usize, Call)], split: usize) -> Vec<u8> {
    // Ten events of three words wait to be read, but for a Channel Enable write, which they would refuse.
    let mut bytes = log_of(&set_up(0x4000_0001, 0x21));
    bytes.extend(log_of(&[
        Pulses(0, 6),
        Trigger,
        Pulses(30, 7),
        Trigger,
        Test,
    ]));
    bytes.extend(log_of(&[Trigger; 8]));
    if matches!(laid[0].1, Write(ENABLE, ..)) {
        bytes.extend(log_of(&set_up(0x4000_0001, 0x20)));
    }
    for (edge, call) in laid {
        fill_to(&mut bytes, edge - split);
        bytes.extend(call.bytes());
        bytes.extend(log_of(&LOOK));
    }
    bytes
}

/// Adds the longest entries up to this length, and one-byte entries where they do not fit.
fn fill_to(bytes: &mut Vec<u8>, length: usize) {
    while bytes.len() + LONGEST.bytes().len() <= length {
        bytes.extend(LONGEST.bytes());
    }
    bytes.resize(length, 2);
}

/// So many entries of one byte behind few whose values have so many digits more than one.
fn listed(shift: usize, entries: usize) -> Vec<u8> {
    let mut calls = vec![Pulses(0, 12)];
    calls.extend((0..10).map(|turn| match turn < shift {
        true => Read(0x1000, 32),
        false => Read(0x1004, 32),
    }));
    let mut bytes = log_of(&calls);
    bytes.resize(bytes.len() + entries, 7);
    bytes
}

/// A log whose listing's last line but one is the last that ends before the edge, and whose last line
/// tells of a fault.
fn fault_listed(shift: usize) -> Vec<u8> {
    let entries = |length: usize| {
        let listing = own_replay(&listed(shift, MANY_LINES));
        listing[..length].matches('\n').count() - 1
    };
    let others = entries(own_replay(&listed(shift, 0)).len());
    let mut bytes = listed(shift, entries(EDGE) - others);
    bytes.push(8);
    bytes
}

/// More entries than 16 bits count, each of one byte, and a fault whose place needs more than these.
fn one_byte_entries() -> Vec<u8> {
    let mut bytes: Vec<u8> = [2, 3, 4, 7].into_iter().cycle().take(70_000).collect();
    bytes.extend(Read(0x1000, 32).bytes());
    bytes.push(0x80);
    bytes
}

#[cfg(test)]
mod tests {
    use super::*;
    use crate::inputs::rng::DEFAULT_SEED;
    use crate::listings::trace::entries_from;

    #[test]
    fn every_byte_of_every_entry_across_meets_each_edge() {
        for call in ACROSS {
            for split in 0..call.bytes().len() {
                let log = across(call, split);
                let (entries, fault) = entries_from(&log, 0);
                assert_eq!(fault, None);
                for edge in edges(split) {
                    let before = entries
                        .iter()
                        .rposition(|entry| entry.place == edge - split);
                    let next = &entries[before.expect("an entry ends there") + 1];
                    assert_eq!(Call::of(next), call);
                }
            }
        }
        for shift in 0..10 {
            let (entries, fault) = entries_from(&shifted(shift), 0);
            assert_eq!(fault.map(|(answer, _)| answer), Some(34));
            let places = entries.iter().map(|entry| entry.place % 10);
            assert!(places.skip(shift).all(|place| place == shift));
        }
    }

    #[test]
    fn every_byte_of_a_line_meets_each_edge_of_a_listing() {
        let mut met = [[false; 10]; 2];
        for shift in 0..10 {
            let listing = own_replay(&listed(shift, MANY_LINES));
            for (edge, met) in [EDGE, 2 * EDGE].into_iter().zip(&mut met) {
                let line = listing[..edge].rfind('\n').expect("a line") + 1;
                met[edge - line] = true;
            }
            let listing = own_replay(&fault_listed(shift));
            let fault = listing.find("fault 33").expect("a fault");
            assert!((EDGE - 10..=EDGE).contains(&fault) && listing.len() > EDGE - 10);
        }
        // Lines are of nine bytes at the first edge and of ten at the second.
        assert_eq!(met[0][..9], [true; 9]);
        assert_eq!(met[1], [true; 10]);
    }

    #[test]
    fn what_lies_across_an_edge_is_answered() {
        for call in ACROSS {
            let log = across(call, 1);
            let (entries, _) = entries_from(&log, 0);
            let listing = own_replay(&log);
            for edge in edges(1) {
                let at = entries.iter().position(|entry| entry.place == edge - 1);
                let line = listing.lines().nth(at.expect("an entry") + 2);
                let line = line.expect("its line");
                assert_eq!(line.split(' ').nth(1), Some("0"), "{:?}", call);
            }
        }
        assert!(long_replays(DEFAULT_SEED).len() >= 50);
    }
}
