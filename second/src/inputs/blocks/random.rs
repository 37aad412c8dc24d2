//! Makes the random inputs of `blocks`: good captures, broken ones and noise, all from one seed.

use crate::inputs::blocks::broken_events::{break_event, with_count, FAULTS};
use crate::inputs::blocks::events::{any_enable, any_settings, good_words};
use crate::inputs::broken_heads::broken_head;
use crate::inputs::input::Input;
use crate::inputs::rng::Rng;
use crate::model::block::{Settings, BIT_26};
use crate::model::write_log::numbers_bytes;

/// The longest capture, in words, of a length that must occur.
pub const LONGEST_COUNTED: usize = 70;

/// The positions and the largest values of a head's limited numbers.
pub const BLOCKS_LIMITS: [(usize, u32); 2] = [(0, 1), (1, 1)];

/// A way of making the input of a capture of about so many words.
type Maker = fn(&mut Rng, usize) -> Vec<u8>;

/// The makers, each with its share of the turns.
const MAKERS: [(usize, (&str, Maker)); 9] = [
    (5, ("whole events", whole_events)),
    (4, ("events, the last one cut", cut_events)),
    (
        12,
        ("an event broken once", |rng, words| broken(rng, words, 1)),
    ),
    (
        8,
        ("an event broken more", |rng, words| broken(rng, words, 3)),
    ),
    (5, ("bits turned", turned_bits)),
    (4, ("read under other settings", other_settings)),
    (3, ("random words", random_words)),
    (4, ("a broken head", bad_head)),
    (1, ("noise", noise)),
];

/// Makes exactly `count` inputs from the seed.
pub fn make_blocks(seed: u64, count: usize) -> Vec<Input> {
    let mut rng = Rng::new(seed);
    (0..count)
        .map(|index| {
            let (what, maker) = rng.pick_by_share(&MAKERS);
            let bytes = maker(&mut rng, index % (LONGEST_COUNTED + 1));
            Input::new(format!("random input {}, {}", index, what), bytes)
        })
        .collect()
}

/// The numbers of the head of these settings.
fn head_of(settings: &Settings) -> [u32; 3] {
    let (header, short) = (settings.header, settings.short);
    [u32::from(header), u32::from(short), settings.enable]
}

/// The input of these words, captured under these settings.
pub fn input_of(settings: &Settings, words: &[u32]) -> Vec<u8> {
    let mut bytes = numbers_bytes(&head_of(settings));
    bytes.extend(words.iter().flat_map(|word| word.to_le_bytes()));
    bytes
}

/// The input of these words, at times with one, two or three bytes behind them.
fn with_bytes_left(rng: &mut Rng, settings: &Settings, words: &[u32]) -> Vec<u8> {
    let mut bytes = input_of(settings, words);
    if rng.one_in(2) {
        for _ in 0..rng.below(4) {
            bytes.push(rng.byte());
        }
    }
    bytes
}

/// Events only, as many as fit.
fn whole_events(rng: &mut Rng, words: usize) -> Vec<u8> {
    let settings = any_settings(rng);
    let whole = words - words % settings.length().max(1);
    let captured = good_words(rng, &settings, whole);
    with_bytes_left(rng, &settings, &captured)
}

/// Events, the last of them cut where the capture ends.
fn cut_events(rng: &mut Rng, words: usize) -> Vec<u8> {
    let settings = any_settings(rng);
    let captured = good_words(rng, &settings, words);
    with_bytes_left(rng, &settings, &captured)
}

/// Events, of which one is broken in at most so many ways.
fn broken(rng: &mut Rng, words: usize, most: usize) -> Vec<u8> {
    let settings = any_settings(rng);
    let mut captured = good_words(rng, &settings, words);
    let length = settings.length().max(1);
    let events = words / length;
    if events > 0 {
        let place = length * rng.below(events).max(rng.below(events));
        let mut event = captured[place..place + length].to_vec();
        let mut ways: Vec<usize> = (0..rng.between(1, most))
            .map(|_| rng.below(FAULTS.len()))
            .collect();
        ways.sort_unstable();
        for way in ways {
            break_event(rng, &settings, &mut event, FAULTS[way]);
        }
        put_broken(&mut captured, place, length, &event);
    }
    with_bytes_left(rng, &settings, &captured)
}

/// Puts a broken event in the place of a good one; one made shorter ends the capture.
pub fn put_broken(captured: &mut Vec<u32>, place: usize, length: usize, event: &[u32]) {
    if event.len() < length {
        captured.truncate(place + length);
    }
    captured.splice(place..place + length, event.iter().copied());
}

/// Events of which one to three bits are turned.
fn turned_bits(rng: &mut Rng, words: usize) -> Vec<u8> {
    let settings = any_settings(rng);
    let mut captured = good_words(rng, &settings, words);
    for _ in 0..rng.between(1, 3) {
        if !captured.is_empty() {
            let place = rng.below(captured.len());
            captured[place] ^= 1 << rng.below(32);
        }
    }
    with_bytes_left(rng, &settings, &captured)
}

/// Events read under settings of which one differs.
fn other_settings(rng: &mut Rng, words: usize) -> Vec<u8> {
    let mut settings = any_settings(rng);
    let captured = good_words(rng, &settings, words);
    match rng.below(4) {
        0 => settings.header = !settings.header,
        1 => settings.short = !settings.short,
        2 => settings.enable ^= 1 << rng.below(32),
        _ => settings.enable = any_enable(rng),
    }
    with_bytes_left(rng, &settings, &captured)
}

/// Random words, at times each like a header.
fn random_words(rng: &mut Rng, words: usize) -> Vec<u8> {
    let settings = any_settings(rng);
    let like_headers = rng.one_in(2);
    let enabled = settings.channels().len() as u32;
    let captured: Vec<u32> = (0..words)
        .map(|_| match rng.word() as u32 {
            word if like_headers => with_count(word & !(3 << 24) | BIT_26, enabled),
            word => word,
        })
        .collect();
    with_bytes_left(rng, &settings, &captured)
}

/// A head that is broken or cut, and events behind it.
fn bad_head(rng: &mut Rng, words: usize) -> Vec<u8> {
    let settings = any_settings(rng);
    let mut bytes = broken_head(rng, &head_of(&settings), &BLOCKS_LIMITS);
    if rng.one_in(2) {
        let captured = good_words(rng, &settings, words);
        bytes.extend(captured.iter().flat_map(|word| word.to_le_bytes()));
    }
    bytes
}

/// Any bytes at all.
fn noise(rng: &mut Rng, words: usize) -> Vec<u8> {
    (0..2 * words).map(|_| rng.byte()).collect()
}
