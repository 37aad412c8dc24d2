//! Breaks the words of a good event in every way that has a number.

use crate::inputs::rng::Rng;
use crate::model::block::{Settings, BIT_26};

/// What is done to an event.
#[derive(Clone, Copy, Debug, PartialEq, Eq)]
pub enum Fault {
    NoBit26,
    Bit25,
    Bit24,
    CountAbove32,
    Count63,
    CountOneOff,
    CountTopBit,
    CountAny,
    DatumBit26,
    DatumDisabled,
    DatumPrevious,
    DatumNextButOne,
    DatumBoth,
    ShortByOne,
    ShortToFirst,
}

use Fault::*;

/// Every fault; those that make the event shorter come last.
pub const FAULTS: [Fault; 15] = [
    NoBit26,
    Bit25,
    Bit24,
    CountAbove32,
    Count63,
    CountOneOff,
    CountTopBit,
    CountAny,
    DatumBit26,
    DatumDisabled,
    DatumPrevious,
    DatumNextButOne,
    DatumBoth,
    ShortByOne,
    ShortToFirst,
];

/// Does to a good event's words what can be done to them.
pub fn break_event(rng: &mut Rng, settings: &Settings, words: &mut Vec<u32>, fault: Fault) {
    match fault {
        ShortByOne => words.truncate(words.len().max(2) - 1),
        ShortToFirst => words.truncate(1),
        DatumBit26 | DatumDisabled | DatumPrevious | DatumNextButOne | DatumBoth => {
            let data = settings.channels().len();
            if data > 0 && words.len() == settings.length() {
                let position = any_position(rng, data);
                let word = &mut words[settings.header_words() + position];
                *word = broken_datum(rng, settings, position, *word, fault);
            }
        }
        _ if settings.header => words[0] = broken_header(rng, words[0], fault),
        _ => {}
    }
}

/// The first, the last or any of so many positions.
fn any_position(rng: &mut Rng, positions: usize) -> usize {
    match rng.below(4) {
        0 => 0,
        1 => positions - 1,
        _ => rng.below(positions),
    }
}

/// A header with a fault.
fn broken_header(rng: &mut Rng, word: u32, fault: Fault) -> u32 {
    let count = word >> 18 & 0x3F;
    match fault {
        NoBit26 => word & !BIT_26,
        Bit25 => word | 1 << 25,
        Bit24 => word | 1 << 24,
        CountAbove32 => with_count(word, rng.between(33, 63) as u32),
        Count63 => with_count(word, 63),
        CountOneOff if count == 0 || rng.one_in(2) => with_count(word, count + 1),
        CountOneOff => with_count(word, count - 1),
        CountTopBit => word ^ 1 << 23,
        _ => with_count(word, rng.below(64) as u32),
    }
}

/// A header with this count.
pub fn with_count(word: u32, count: u32) -> u32 {
    word & !(0x3F << 18) | count << 18
}

/// The datum at a position, as if short, with a fault.
fn broken_datum(
    rng: &mut Rng,
    settings: &Settings,
    position: usize,
    word: u32,
    fault: Fault,
) -> u32 {
    let channels = settings.channels();
    let due = channels[position];
    let before = position.checked_sub(1).map(|before| channels[before]);
    match fault {
        DatumBit26 => word | BIT_26,
        DatumDisabled => with_channel(word, disabled(rng, settings).unwrap_or(due ^ 1)),
        DatumPrevious => with_channel(word, before.unwrap_or((due + 31) % 32)),
        DatumNextButOne => {
            let next = channels.get(position + 1).copied();
            with_channel(word, next.unwrap_or((due + 1) % 32))
        }
        _ => with_channel(word, due ^ 1 << rng.below(5)) | BIT_26,
    }
}

/// A datum with this channel.
pub fn with_channel(word: u32, channel: usize) -> u32 {
    word & 0x07FF_FFFF | (channel as u32) << 27
}

/// Any disabled channel.
fn disabled(rng: &mut Rng, settings: &Settings) -> Option<usize> {
    let off: Vec<usize> = (0..32)
        .filter(|channel| !settings.enabled(*channel))
        .collect();
    off.get(rng.below(off.len().max(1))).copied()
}
