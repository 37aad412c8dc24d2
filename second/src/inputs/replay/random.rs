//! Makes the random logs of `replay`: whole ones, ones that fill the memory, and broken ones.

use crate::inputs::input::Input;
use crate::inputs::logs::entries::{good_entry, odd_entry};
use crate::inputs::replay::fixed::{every_fault, log_of};
use crate::inputs::rng::Rng;
use crate::inputs::trace::long::full_memory;
use crate::inputs::trace::random::{is_tame, make_calls, tame};
use crate::inputs::trace::scripts_v830::{
    BIT_SET, CLEAR, ENABLE, MEMORY, NUMBER, SOFTWARE_TRIGGER, TRIGGERS,
};
use crate::listings::replay::{replay_head, REPLAY_WORDS};
use crate::model::block::CHANNELS;
use crate::model::module::Call::{self, *};
use crate::model::v830::{AUTO_RESET, CLEAR_EMPTIES, HEADER, RANDOM, SHORT};

/// Of so many whole logs there is one broken log besides.
const WHOLE_TO_BROKEN: usize = 8;

/// Of so many whole logs one fills the memory, and of so many of these one reads it to its end.
const WHOLE_TO_FULL: usize = 20;
const FULL_TO_READ: usize = 12;

/// Makes `count` whole logs, and broken ones besides.
pub fn make_replays(seed: u64, count: usize) -> Vec<Input> {
    let mut rng = Rng::new(seed);
    let mut inputs = Vec::new();
    for number in 0..count {
        let (what, log) = match number % WHOLE_TO_FULL {
            0 => ("full", full_log(&mut rng, number / WHOLE_TO_FULL)),
            _ => ("whole", whole_log(&mut rng)),
        };
        inputs.push(Input::new(format!("{} log {}", what, number), log));
    }
    for number in 0..count / WHOLE_TO_BROKEN {
        let (what, log) = match number % 2 {
            0 => faulty_log(&mut rng, number / 2),
            _ => broken_log(&mut rng),
        };
        inputs.push(Input::new(format!("broken log {}, {}", number, what), log));
    }
    inputs
}

/// Good entries, few or some hundreds, at times some more.
pub fn whole_log(rng: &mut Rng) -> Vec<u8> {
    let entries = match rng.below(10) {
        0..=4 => rng.between(1, 60),
        5..=8 => rng.between(60, 300),
        _ => rng.between(300, 1_500),
    };
    log_of(&make_calls(rng, &replay_head(), entries))
}

/// A Control content of mode random.
fn random_control(rng: &mut Rng) -> u32 {
    let bits = SHORT | HEADER | CLEAR_EMPTIES | AUTO_RESET;
    RANDOM | rng.word() as u32 & bits
}

/// The memory filled with events, pulses in between, and calls of a full memory behind that.
fn full_log(rng: &mut Rng, turn: usize) -> Vec<u8> {
    // The first few have events that fill a memory of 16,384 words to its last one.
    let channels = match turn % 3 {
        0 => CHANNELS,
        _ => rng.between(6, CHANNELS),
    };
    let mut enable = 0u32;
    while (enable.count_ones() as usize) < channels {
        enable |= 1 << rng.below(CHANNELS);
    }
    let control = match turn % 3 {
        0 => random_control(rng) & !HEADER,
        _ => random_control(rng),
    };
    let mut calls = full_memory(REPLAY_WORDS, enable, control);
    for _ in 0..rng.between(20, 80) {
        let pulses = Pulses(rng.below(CHANNELS) as u32, rng.below(300) as u32);
        calls.insert(rng.between(2, calls.len()), pulses);
    }
    if turn % FULL_TO_READ == 0 {
        calls.extend((0..REPLAY_WORDS + 9).map(|word| Read(4 * (word % 1_024), 32)));
    }
    calls.extend((0..rng.between(30, 200)).map(|_| call_of_full(rng)));
    log_of(&calls)
}

/// A call that tells whether a full memory is as it must be, or changes it a little.
fn call_of_full(rng: &mut Rng) -> Call {
    let pulses = Pulses(rng.below(CHANNELS) as u32, rng.below(300) as u32);
    rng.pick_by_share(&[
        (30, MEMORY),
        (6, Trigger),
        (6, SOFTWARE_TRIGGER),
        (6, NUMBER),
        (3, TRIGGERS),
        (8, pulses),
        (2, Test),
        (2, Write(ENABLE, 32, 5)),
        (2, Write(BIT_SET, 16, 2)),
        (1, ManClr),
        (1, ClearLine),
        (1, CLEAR),
    ])
}

/// A log that ends in one of the faults of every kind of entry, by turns, and the fault.
fn faulty_log(rng: &mut Rng, turn: usize) -> (String, Vec<u8>) {
    let faults = every_fault();
    let (what, end) = &faults[turn % faults.len()];
    (what.clone(), [&whole_log(rng)[..], end].concat())
}

/// A log with a fault, mostly, and what is wrong with it.
fn broken_log(rng: &mut Rng) -> (String, Vec<u8>) {
    let (what, end): (_, fn(&mut Rng) -> Vec<u8>) = match rng.below(5) {
        0 => ("cut inside an entry", cut_entry),
        1 => ("an odd number at its end", odd_entry),
        _ => return broken_trace(rng),
    };
    loop {
        let log = [whole_log(rng), end(rng)].concat();
        if is_tame_log(&log) {
            return (what.to_string(), log);
        }
    }
}

/// A good entry of several bytes, some of them missing at its end.
fn cut_entry(rng: &mut Rng) -> Vec<u8> {
    loop {
        let mut entry = good_entry(rng);
        if entry.len() > 1 {
            entry.truncate(rng.between(1, entry.len() - 1));
            return entry;
        }
    }
}

/// The log of a broken trace whose head is good.
fn broken_trace(rng: &mut Rng) -> (String, Vec<u8>) {
    let head = replay_head().bytes();
    loop {
        let (what, bytes) = tame(rng, |_| replay_head());
        if let Some(log) = bytes.strip_prefix(&head[..]) {
            return (what.to_string(), log.to_vec());
        }
    }
}

/// Whether no channel gets more pulses at once than are counted quickly.
pub fn is_tame_log(log: &[u8]) -> bool {
    is_tame(&[&replay_head().bytes(), log].concat())
}

#[cfg(test)]
mod tests {
    use super::*;
    use crate::inputs::rng::DEFAULT_SEED;
    use crate::listings::trace::entries_from;

    #[test]
    fn a_seed_repeats_its_logs_and_another_differs() {
        assert_eq!(make_replays(7, 48), make_replays(7, 48));
        assert_ne!(make_replays(7, 48), make_replays(8, 48));
        assert_eq!(make_replays(7, 48).len(), 48 + 6);
    }

    #[test]
    fn every_log_is_tame_and_every_whole_one_good() {
        for input in make_replays(DEFAULT_SEED, 240) {
            assert!(is_tame_log(&input.bytes), "{}", input.name);
            let (_, fault) = entries_from(&input.bytes, 0);
            let broken = input.name.starts_with("broken");
            assert!(broken || fault.is_none(), "{}", input.name);
        }
    }
}
