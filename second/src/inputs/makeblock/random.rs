//! Makes the random inputs of `makeblock`: events to write, spoiled ones and broken heads.

use crate::inputs::blocks::events::{any_event, any_settings};
use crate::inputs::broken_heads::broken_head;
use crate::inputs::input::Input;
use crate::inputs::numbers::any_value;
use crate::inputs::rng::Rng;
use crate::listings::makeblock::{Request, LARGEST_ROOM};
use crate::model::block::{
    Event, Settings, CHANNELS, LARGEST_GEO, LARGEST_SHORT_COUNT, LARGEST_SOURCE, LARGEST_TRIGGER,
};
use crate::model::write_log::numbers_bytes;

/// The positions and the largest values of a head's limited numbers.
pub const MAKEBLOCK_LIMITS: [(usize, u32); 3] = [(0, 1), (1, 1), (3, LARGEST_ROOM)];

/// How many of the conditions of 28 an event is spoiled by, with the shares of the turns.
const SPOILED: [(usize, usize); 3] = [(5, 0), (4, 1), (1, 2)];

/// Makes exactly `count` inputs from the seed.
pub fn make_requests(seed: u64, count: usize) -> Vec<Input> {
    let mut rng = Rng::new(seed);
    (0..count)
        .map(|index| {
            let bytes = any_request(&mut rng, index);
            Input::new(format!("random input {}", index), bytes)
        })
        .collect()
}

/// The request of this index, at times with a broken head or bytes behind it.
fn any_request(rng: &mut Rng, index: usize) -> Vec<u8> {
    let settings = any_settings(rng);
    let mut event = any_event(rng, &settings);
    for _ in 0..rng.pick_by_share(&SPOILED) {
        spoil(rng, &settings, &mut event);
    }
    let request = Request {
        settings,
        room: any_room(rng, index, settings.length()),
        event,
    };
    let mut bytes = match rng.below(8) {
        0 => broken_head(rng, &request.numbers(), &MAKEBLOCK_LIMITS),
        _ => numbers_bytes(&request.numbers()),
    };
    if rng.one_in(3) {
        for _ in 0..rng.between(1, 9) {
            bytes.push(rng.byte());
        }
    }
    bytes
}

/// Every room in its turn, and between two of them the event's length or next to it.
fn any_room(rng: &mut Rng, index: usize, length: usize) -> usize {
    if index % 2 == 0 {
        return index / 2 % (LARGEST_ROOM as usize + 1);
    }
    rng.pick(&[length, length, length.saturating_sub(1), length + 1])
}

/// Spoils an event by a condition of 28, if the settings leave room for it.
fn spoil(rng: &mut Rng, settings: &Settings, event: &mut Event) {
    let channel = rng.below(CHANNELS);
    match rng.below(6) {
        0 => event.geo = above(rng, LARGEST_GEO),
        1 => event.source = above(rng, LARGEST_SOURCE),
        2 => event.trigger = above(rng, LARGEST_TRIGGER),
        3 => event.counts[channel] = above(rng, LARGEST_SHORT_COUNT),
        4 => event.counts[channel] = any_value(rng),
        _ => {
            let field = match rng.below(3) {
                0 => &mut event.geo,
                1 => &mut event.source,
                _ => &mut event.trigger,
            };
            *field = u32::from(!settings.header);
        }
    }
}

/// A value above the largest: the next one, or one that is small once cut to fewer bits, or any.
fn above(rng: &mut Rng, largest: u32) -> u32 {
    let bits = 32 - largest.leading_zeros();
    match rng.below(4) {
        0 | 1 => largest + 1,
        2 => largest | 1 << rng.between(bits as usize, 31),
        _ => any_value(rng).max(largest + 1),
    }
}
