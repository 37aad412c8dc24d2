//! Captures longer than 64 KiB, whose events lie across every multiple of 65,536 bytes.

use crate::inputs::blocks::broken_events::{break_event, FAULTS};
use crate::inputs::blocks::events::{good_words, settings_of, FORMATS};
use crate::inputs::blocks::random::{input_of, put_broken};
use crate::inputs::input::Input;
use crate::inputs::rng::Rng;

/// What a program may well read at a time.
const EDGE: usize = 65_536;

/// All long inputs, from the seed.
pub fn long_blocks(seed: u64) -> Vec<Input> {
    let mut rng = Rng::new(seed);
    let mut inputs = Vec::new();
    for enable_bytes in 1..=5 {
        add_every_offset(&mut rng, enable_bytes, &mut inputs);
        add_ends_at_edge(&mut rng, enable_bytes, &mut inputs);
        add_broken_at_edge(&mut rng, enable_bytes, &mut inputs);
    }
    add_longest_and_shortest(&mut rng, &mut inputs);
    inputs
}

/// A Channel Enable that takes so many bytes in a head.
fn enable_of(rng: &mut Rng, bytes: usize) -> u32 {
    let top = rng.between(7 * (bytes - 1), (7 * bytes).min(32) - 1);
    let low = rng.word() as u32 & rng.word() as u32;
    1 << top | low & ((1 << top) - 1)
}

/// A Channel Enable of two or three channels that takes so many bytes in a head.
fn enable_of_few(bytes: usize, channels: usize) -> u32 {
    let top = [6, 13, 20, 27, 31][bytes - 1];
    1 << top | if channels == 2 { 1 } else { 3 }
}

/// More than 200 KiB of events of three words, so that the three edges meet each word of an event.
fn add_every_offset(rng: &mut Rng, enable_bytes: usize, inputs: &mut Vec<Input>) {
    for (number, format) in FORMATS.into_iter().enumerate() {
        let channels = if format.0 { 2 } else { 3 };
        let settings = settings_of(format, enable_of_few(enable_bytes, channels));
        let events = (3 * EDGE + 9_000) / 12;
        let captured = good_words(rng, &settings, 3 * events);
        let mut bytes = input_of(&settings, &captured);
        bytes.truncate(bytes.len() - (number + enable_bytes) % 5);
        let name = format!(
            "three-word events over three edges, enable {:X}",
            settings.enable
        );
        inputs.push(Input::new(name, bytes));
    }
}

/// Inputs that end at the edge and close to it.
fn add_ends_at_edge(rng: &mut Rng, enable_bytes: usize, inputs: &mut Vec<Input>) {
    for length in EDGE - 5..=EDGE + 5 {
        let settings = settings_of(rng.pick(&FORMATS), enable_of(rng, enable_bytes));
        let captured = good_words(rng, &settings, length / 4 + 1);
        let mut bytes = input_of(&settings, &captured);
        bytes.truncate(length);
        let name = format!("{} bytes, enable {:X}", length, settings.enable);
        inputs.push(Input::new(name, bytes));
    }
}

/// Captures over the edge of which the event at the edge is broken, or the one before or behind it.
fn add_broken_at_edge(rng: &mut Rng, enable_bytes: usize, inputs: &mut Vec<Input>) {
    for format in FORMATS {
        for event in 0..3 {
            let settings = settings_of(format, enable_of(rng, enable_bytes));
            let (length, head) = (settings.length(), 2 + enable_bytes);
            let mut captured = good_words(rng, &settings, EDGE / 4 + 3 * length);
            let place = ((EDGE - head) / 4 / length + event - 1) * length;
            let mut broken = captured[place..place + length].to_vec();
            let fault = rng.pick(&FAULTS);
            break_event(rng, &settings, &mut broken, fault);
            put_broken(&mut captured, place, length, &broken);
            let name = format!("{:?} at word {}", fault, place);
            inputs.push(Input::new(name, input_of(&settings, &captured)));
        }
    }
}

/// The longest events, in every format, and events of a header only, over the edge.
fn add_longest_and_shortest(rng: &mut Rng, inputs: &mut Vec<Input>) {
    let longest = FORMATS.map(|format| settings_of(format, u32::MAX));
    let shortest = [false, true].map(|short| settings_of((true, short), 0));
    for settings in longest.into_iter().chain(shortest) {
        let captured = good_words(rng, &settings, EDGE / 4 + 100);
        let name = format!("events of {} words over the edge", settings.length());
        inputs.push(Input::new(name, input_of(&settings, &captured)));
    }
}
