//! Makes settings, events and the words of good events.

use crate::inputs::numbers::{any_half_word, any_value};
use crate::inputs::rng::Rng;
use crate::model::block::{write_event, Event, Settings, CHANNELS, LARGEST_SHORT_COUNT};

/// Header and short format in every combination.
pub const FORMATS: [(bool, bool); 4] = [(false, false), (false, true), (true, false), (true, true)];

/// Channel Enables of every kind: none, one, all, sparse, dense, high only, low only.
pub const ENABLES: [u32; 24] = [
    0, 1, 2, 5, 7, 0x80, 0x4000, 0x200000, 0x10000000, 0x40000000, 0x80000000, 0x80000001,
    0x80008001, 0xC0000000, 0xFFFF0000, 0x0000FFFF, 0xFFFFFFF8, 0x1FFFFFFF, 0x55555555, 0xAAAAAAAA,
    0x7FFFFFFF, 0xFFFFFFFE, 0xFFFDFFFF, 0xFFFFFFFF,
];

/// Settings of this format and Channel Enable.
pub fn settings_of((header, short): (bool, bool), enable: u32) -> Settings {
    Settings {
        header,
        short,
        enable,
    }
}

/// Any settings.
pub fn any_settings(rng: &mut Rng) -> Settings {
    settings_of(rng.pick(&FORMATS), any_enable(rng))
}

/// Any Channel Enable; those of few channels come more often, for they make many events.
pub fn any_enable(rng: &mut Rng) -> u32 {
    match rng.below(16) {
        0 => 0,
        1 => u32::MAX,
        2 => 1 << 31,
        3..=5 => 1 << rng.below(CHANNELS),
        6..=10 => some_bits(rng, 5),
        11 => !some_bits(rng, 4),
        12 => u32::MAX >> rng.below(CHANNELS),
        13 => u32::MAX << rng.below(CHANNELS),
        14 => rng.pick(&ENABLES),
        _ => rng.word() as u32,
    }
}

/// A few bits set, at most `most`.
fn some_bits(rng: &mut Rng, most: usize) -> u32 {
    (0..rng.between(1, most)).fold(0, |bits, _| bits | 1 << rng.below(CHANNELS))
}

/// Any count that fits the format.
fn any_count(rng: &mut Rng, short: bool) -> u32 {
    let edges = [LARGEST_SHORT_COUNT, LARGEST_SHORT_COUNT - 1, 1 << 25];
    match rng.below(6) {
        0 => rng.pick(&edges),
        1 if !short => LARGEST_SHORT_COUNT + 1 + rng.below(3) as u32,
        _ if short => any_value(rng) & LARGEST_SHORT_COUNT,
        _ => any_value(rng),
    }
}

/// Any event that can be written under the settings.
pub fn any_event(rng: &mut Rng, settings: &Settings) -> Event {
    let mut event = Event::default();
    if settings.header {
        event.geo = rng.below(32) as u32;
        event.source = rng.below(4) as u32;
        event.trigger = any_half_word(rng);
    }
    for channel in settings.channels() {
        event.counts[channel] = any_count(rng, settings.short);
    }
    event
}

/// Exactly so many words of good events, the last one cut where it does not fit; noise if an event has no words.
pub fn good_words(rng: &mut Rng, settings: &Settings, words: usize) -> Vec<u32> {
    let length = settings.length();
    if length == 0 {
        return (0..words).map(|_| rng.word() as u32).collect();
    }
    let mut all = Vec::new();
    let mut lent = vec![0; length];
    while all.len() < words {
        let event = any_event(rng, settings);
        let written = write_event(settings, &event, &mut lent);
        debug_assert_eq!(written.answer, 0);
        all.extend(&lent);
    }
    all.truncate(words);
    all
}
