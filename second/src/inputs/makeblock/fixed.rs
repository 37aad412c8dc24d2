//! Inputs of `makeblock` that are the same in every comparison: document 01's own and every edge.

use crate::inputs::blocks::events::{any_event, any_settings, settings_of, ENABLES, FORMATS};
use crate::inputs::broken_heads::{every_broken_head, every_cut_head, two_faults};
use crate::inputs::input::Input;
use crate::inputs::makeblock::random::MAKEBLOCK_LIMITS;
use crate::inputs::rng::Rng;
use crate::listings::makeblock::{Request, LARGEST_ROOM};
use crate::model::block::{Event, Settings, CHANNELS};
use crate::model::write_log::numbers_bytes;

/// Changes to an event, each by its position in the head (4 GEO, 5 source, 6 trigger, 7 on the
/// counts) and the value there: every condition of 28 at its edge and far behind it.
const EDITS: [(usize, u32); 30] = [
    (4, 1),
    (4, 31),
    (4, 32),
    (4, 0x80000000),
    (5, 1),
    (5, 3),
    (5, 4),
    (5, 0x100),
    (6, 1),
    (6, 65_535),
    (6, 65_536),
    (6, 0xFFFF0000),
    (7, 0),
    (7, 1),
    (7, 0x03FFFFFF),
    (7, 0x04000000),
    (7, 0xFFFFFFFF),
    (8, 1),
    (8, 0x03FFFFFF),
    (8, 0x04000000),
    (8, 0xFFFFFFFF),
    (9, 0x03FFFFFF),
    (9, 0x04000000),
    (9, 0x80000000),
    (37, 1),
    (37, 0x04000000),
    (38, 1),
    (38, 0x03FFFFFF),
    (38, 0x04000000),
    (38, 0xFFFFFFFF),
];

/// All fixed inputs.
pub fn fixed_requests() -> Vec<Input> {
    let mut rng = Rng::new(1);
    let mut inputs = Vec::new();
    add_marked(&mut inputs);
    add_edits(&mut inputs);
    add_rooms(&mut rng, &mut inputs);
    add_rooms_at_length(&mut rng, &mut inputs);
    add_heads(&mut inputs);
    inputs
}

/// Adds the input of a request.
fn add(inputs: &mut Vec<Input>, name: impl ToString, request: &Request) {
    inputs.push(Input::new(name, numbers_bytes(&request.numbers())));
}

/// Document 01's event: GEO 1, counts 7 and 9, first trigger, source 0.
pub fn marked_event() -> Event {
    let mut counts = [0; CHANNELS];
    counts[0] = 7;
    counts[2] = 9;
    Event {
        geo: 1,
        source: 0,
        trigger: 1,
        counts,
    }
}

/// The marked cases, and without header.
fn add_marked(inputs: &mut Vec<Input>) {
    for format in FORMATS {
        for room in [2, 3, 4] {
            let settings = settings_of(format, 5);
            let event = base_event(&settings);
            let request = Request {
                settings,
                room,
                event,
            };
            add(inputs, "a marked case", &request);
            let bytes = numbers_bytes(&request.numbers());
            for behind in [&[0x00][..], &[0x80], &[0xFF; 9]] {
                let bytes = [&bytes[..], behind].concat();
                inputs.push(Input::new("a marked case, bytes behind it", bytes));
            }
        }
    }
}

/// The marked event as far as the settings take it.
fn base_event(settings: &Settings) -> Event {
    let mut event = marked_event();
    if !settings.header {
        event.geo = 0;
        event.trigger = 0;
    }
    for (channel, count) in event.counts.iter_mut().enumerate() {
        *count *= settings.enable >> channel & 1;
    }
    event
}

/// Every edit in every format, with room enough and with one word too few, for three enables.
fn add_edits(inputs: &mut Vec<Input>) {
    for (position, value) in EDITS {
        for format in FORMATS {
            for enable in [5, 0, u32::MAX] {
                let settings = settings_of(format, enable);
                let length = settings.length();
                for room in [length, length.saturating_sub(1)] {
                    let event = base_event(&settings);
                    let mut numbers = Request {
                        settings,
                        room,
                        event,
                    }
                    .numbers();
                    numbers[position] = value;
                    let name = format!("number {} is {}, room {}", position, value, room);
                    inputs.push(Input::new(name, numbers_bytes(&numbers)));
                }
            }
        }
    }
}

/// Every room, for the longest event in both formats and for any other.
fn add_rooms(rng: &mut Rng, inputs: &mut Vec<Input>) {
    for room in 0..=LARGEST_ROOM as usize {
        let longest = settings_of((true, room % 2 == 0), u32::MAX);
        for settings in [longest, any_settings(rng)] {
            let event = any_event(rng, &settings);
            let request = Request {
                settings,
                room,
                event,
            };
            add(inputs, format!("room {}", room), &request);
        }
    }
}

/// The room that is the event's length, one less and one more, for every kind of enable.
fn add_rooms_at_length(rng: &mut Rng, inputs: &mut Vec<Input>) {
    for (number, enable) in ENABLES.iter().enumerate() {
        let settings = settings_of(FORMATS[number % 4], *enable);
        let length = settings.length();
        for room in [length, length.saturating_sub(1), length + 1] {
            let event = any_event(rng, &settings);
            let request = Request {
                settings,
                room,
                event,
            };
            add(inputs, format!("room {} of {}", room, length), &request);
        }
    }
}

/// Heads with every fault at each number.
fn add_heads(inputs: &mut Vec<Input>) {
    let settings = settings_of((true, false), 5);
    let event = marked_event();
    let request = Request {
        settings,
        room: 3,
        event,
    };
    let mut heads = every_cut_head(&request.numbers());
    heads.extend(every_broken_head(&request.numbers(), &MAKEBLOCK_LIMITS));
    heads.extend(two_faults(&request.numbers(), &MAKEBLOCK_LIMITS));
    for bytes in heads {
        inputs.push(Input::new("a broken head", bytes));
    }
}
