//! Inputs of `blocks` that are the same in every comparison: document 01's own, every edge, every bit.

use crate::inputs::blocks::broken_events::{break_event, with_count, FAULTS};
use crate::inputs::blocks::events::{any_enable, good_words, settings_of, ENABLES, FORMATS};
use crate::inputs::blocks::random::{input_of, put_broken, BLOCKS_LIMITS, LONGEST_COUNTED};
use crate::inputs::broken_heads::{every_broken_head, every_cut_head, two_faults};
use crate::inputs::input::Input;
use crate::inputs::rng::Rng;
use crate::model::block::Settings;

/// A capture written by hand: header, short, enable, its words, and the answers of its lines.
type ByHand = (bool, bool, u32, &'static [u32], &'static [u32]);

const ON: bool = true;
const OFF: bool = false;

/// Captures written by hand from document 01.
pub const BY_HAND: [ByHand; 64] = [
    // The marked cases, alone, in company, with words behind them.
    (ON, OFF, 5, &[0x0C080001, 0x00000007, 0x00000009], &[0]),
    (ON, ON, 5, &[0x0C080001, 0x00000007, 0x10000009], &[0]),
    (ON, OFF, 5, &[0x0C080001, 7, 9, 0x0C080002, 7, 9], &[0, 0]),
    (
        ON,
        ON,
        5,
        &[0x0C080001, 7, 0x10000009, 0x0C080002],
        &[0, 20],
    ),
    (OFF, OFF, 5, &[7, 9, 8, 10], &[0, 0]),
    (OFF, ON, 5, &[7, 0x10000009, 8, 0x1000000A], &[0, 0]),
    // 8: header off and Channel Enable 0. With header it is an event of one word.
    (OFF, OFF, 0, &[], &[]),
    (OFF, OFF, 0, &[0], &[8]),
    (OFF, ON, 0, &[0x04000000, 1], &[8]),
    (ON, OFF, 0, &[0x04000000, 0x04000001], &[0, 0]),
    (ON, ON, 0, &[0xFC03FFFF, 0xFC03FFFF], &[0, 0]),
    // 20: the words end before the event does.
    (OFF, OFF, 5, &[7], &[20]),
    (OFF, ON, 5, &[7, 0x10000009, 7], &[0, 20]),
    (ON, OFF, 5, &[0x0C080001], &[20]),
    (ON, OFF, 5, &[0x0C080001, 7], &[20]),
    (ON, ON, 5, &[0x0C080001, 7], &[20]),
    // 21: no bit 26.
    (ON, OFF, 5, &[0x08080001, 7, 9], &[21]),
    (ON, ON, 0, &[0xF803FFFF], &[21]),
    (ON, OFF, 5, &[0, 0, 0], &[21]),
    // 26: bit 24, bit 25, both.
    (ON, OFF, 5, &[0x0D080001, 7, 9], &[26]),
    (ON, OFF, 5, &[0x0E080001, 7, 9], &[26]),
    (ON, ON, 5, &[0x0F080001, 7, 0x10000009], &[26]),
    // 22: counts 33 and 63. 25: counts 32, 1, 3, 0; 31 where all are enabled; 1 where none is.
    (ON, OFF, 5, &[0x0C840001, 7, 9], &[22]),
    (ON, OFF, 5, &[0x0CFC0001, 7, 9], &[22]),
    (ON, OFF, 5, &[0x0C800001, 7, 9], &[25]),
    (ON, OFF, 5, &[0x0C040001, 7, 9], &[25]),
    (ON, ON, 5, &[0x0C0C0001, 7, 0x10000009], &[25]),
    (ON, OFF, 5, &[0x0C000001, 7, 9], &[25]),
    (ON, OFF, 0xFFFFFFFF, &[0x0C7C0001, 7, 9], &[25]),
    (ON, OFF, 0xFFFFFFFF, &[0x0C840001, 7, 9], &[22]),
    (ON, OFF, 0xFFFFFFFF, &[0x0C800001, 7, 9], &[20]),
    (ON, OFF, 0, &[0x04040000], &[25]),
    (ON, OFF, 0, &[0x04840000], &[22]),
    // 23: bit 26 of the first and of the last datum.
    (ON, ON, 5, &[0x0C080001, 0x04000007, 0x10000009], &[23]),
    (ON, ON, 5, &[0x0C080001, 0x00000007, 0x14000009], &[23]),
    (
        OFF,
        ON,
        5,
        &[7, 0x10000009, 0x04000000, 0x10000000],
        &[0, 23],
    ),
    // 24: a disabled channel, the next but one, the previous, the next but one at the end.
    (ON, ON, 5, &[0x0C080001, 0x08000007, 0x10000009], &[24]),
    (ON, ON, 5, &[0x0C080001, 0x10000007, 0x10000009], &[24]),
    (ON, ON, 5, &[0x0C080001, 0x00000007, 0x00000009], &[24]),
    (ON, ON, 5, &[0x0C080001, 0x00000007, 0x18000009], &[24]),
    (
        OFF,
        ON,
        0x80000000,
        &[0xF8000001, 0xFBFFFFFF, 0xF0000001],
        &[0, 0, 24],
    ),
    (OFF, ON, 1, &[0x03FFFFFF, 0, 0x80000000], &[0, 0, 24]),
    // In the long format every word is a count.
    (ON, OFF, 5, &[0x0C080001, 0xFFFFFFFF, 0x04000000], &[0]),
    (
        OFF,
        OFF,
        0x80000000,
        &[0xFFFFFFFF, 0, 0x0C080001],
        &[0, 0, 0],
    ),
    // The order: 21 with 26, with 22, with 25; 26 with 22, with 25.
    (ON, OFF, 5, &[0x0B080001, 7, 9], &[21]),
    (ON, OFF, 5, &[0x08840001, 7, 9], &[21]),
    (ON, OFF, 5, &[0x08040001, 7, 9], &[21]),
    (ON, OFF, 5, &[0x0D840001, 7, 9], &[26]),
    (ON, OFF, 5, &[0x0E040001, 7, 9], &[26]),
    // The order: each header's fault with a short body; a short body with a wrong datum.
    (ON, OFF, 5, &[0x08080001], &[21]),
    (ON, OFF, 5, &[0x0D080001, 7], &[26]),
    (ON, OFF, 5, &[0x0C840001, 7], &[22]),
    (ON, ON, 5, &[0x0C040001, 7], &[25]),
    (ON, ON, 5, &[0x0C080001, 0x04000007], &[20]),
    (ON, ON, 5, &[0x0C080001, 0x08000007], &[20]),
    // The order: a header's fault with a wrong datum; 23 and 24 in one datum, 24 then 23, 23 then 24.
    (ON, ON, 5, &[0x0C0C0001, 0x0C000007, 0x10000009], &[25]),
    (ON, ON, 5, &[0x0C080001, 0x0C000007, 0x10000009], &[23]),
    (ON, ON, 5, &[0x0C080001, 0x08000007, 0x14000009], &[24]),
    (ON, ON, 5, &[0x0C080001, 0x04000007, 0x18000009], &[23]),
    // 24 at the next but one, also where the datum behind it is wrong in another way.
    (OFF, ON, 7, &[0x08000001, 0x14000002, 0x10000003], &[24]),
    (OFF, ON, 7, &[0x10000001, 0x08000002, 0x04000003], &[24]),
    // Words behind an event are not looked at; behind a refused one nothing more is listed.
    (
        ON,
        ON,
        5,
        &[0x0C080001, 7, 0x10000009, 0xFFFFFFFF],
        &[0, 26],
    ),
    (
        ON,
        ON,
        5,
        &[0x0C080001, 7, 0x14000009, 0x0C080001, 7, 0x10000009],
        &[23],
    ),
    (
        OFF,
        ON,
        0xC0000000,
        &[0xF0000001, 0xF8000002, 0xF0000003, 0xF0000004, 5],
        &[0, 24],
    ),
];

/// All fixed inputs.
pub fn fixed_blocks() -> Vec<Input> {
    let mut rng = Rng::new(1);
    let mut inputs = Vec::new();
    add_by_hand(&mut inputs);
    add_heads(&mut inputs);
    add_lengths(&mut rng, &mut inputs);
    add_enables(&mut rng, &mut inputs);
    add_turned_bits(&mut rng, &mut inputs);
    add_header_counts(&mut rng, &mut inputs);
    add_pairs_of_faults(&mut rng, &mut inputs);
    inputs
}

/// The captures written by hand, each as it is and with one, two or three bytes behind it.
fn add_by_hand(inputs: &mut Vec<Input>) {
    for (number, (header, short, enable, words, _)) in BY_HAND.iter().enumerate() {
        let settings = settings_of((*header, *short), *enable);
        let mut bytes = input_of(&settings, words);
        inputs.push(Input::new(format!("by hand {}", number), bytes.clone()));
        bytes.extend(vec![0x04; 1 + number % 3]);
        inputs.push(Input::new(format!("by hand {} and bytes", number), bytes));
    }
}

/// Heads cut at each number, and heads with every fault at each number in front of a good event.
fn add_heads(inputs: &mut Vec<Input>) {
    let event = [7, 0, 0, 0, 9, 0, 0, 0];
    for head in [[0, 0, 5], [0, 1, 0xFFFFFFFF], [1, 0, 300]] {
        for bytes in every_cut_head(&head) {
            let name = format!("a head like {:?}, cut", head);
            inputs.push(Input::new(name, bytes));
        }
        let mut broken = every_broken_head(&head, &BLOCKS_LIMITS);
        broken.extend(two_faults(&head, &BLOCKS_LIMITS));
        for bytes in broken {
            let name = format!("a head like {:?}", head);
            inputs.push(Input::new(name, [&bytes[..], &event].concat()));
        }
    }
}

/// Every capture length in every format.
fn add_lengths(rng: &mut Rng, inputs: &mut Vec<Input>) {
    for words in 0..=LONGEST_COUNTED {
        for format in FORMATS {
            let settings = settings_of(format, any_enable(rng));
            let captured = good_words(rng, &settings, words);
            let name = format!("{} words", words);
            inputs.push(Input::new(name, input_of(&settings, &captured)));
        }
    }
}

/// Every kind of enable in every format, two whole events or three.
fn add_enables(rng: &mut Rng, inputs: &mut Vec<Input>) {
    for (number, enable) in ENABLES.iter().enumerate() {
        for format in FORMATS {
            let settings = settings_of(format, *enable);
            let words = settings.length() * (2 + number % 2);
            let captured = good_words(rng, &settings, words);
            let name = format!("whole events of enable {:08X}", enable);
            inputs.push(Input::new(name, input_of(&settings, &captured)));
        }
    }
}

/// Three events, the middle one's words given to a change.
fn three_events(
    rng: &mut Rng,
    settings: &Settings,
    change: impl FnOnce(&mut Rng, &mut Vec<u32>),
) -> Vec<u8> {
    let length = settings.length();
    let mut captured = good_words(rng, settings, 3 * length);
    let mut middle = captured[length..2 * length].to_vec();
    change(rng, &mut middle);
    put_broken(&mut captured, length, length, &middle);
    input_of(settings, &captured)
}

/// Every bit of a header turned, and of a datum in every format.
fn add_turned_bits(rng: &mut Rng, inputs: &mut Vec<Input>) {
    for bit in 0..32 {
        for format in FORMATS {
            let settings = settings_of(format, any_enable(rng) | 0x00100020);
            let bytes = three_events(rng, &settings, |rng, words| {
                let place = rng.between(settings.header_words(), words.len() - 1);
                words[place] ^= 1 << bit;
            });
            inputs.push(Input::new(format!("bit {} of a datum", bit), bytes));
            if settings.header {
                let bytes = three_events(rng, &settings, |_, words| words[0] ^= 1 << bit);
                inputs.push(Input::new(format!("bit {} of a header", bit), bytes));
            }
        }
    }
}

/// Every count that a header can hold, for an enable of every size in its turn.
fn add_header_counts(rng: &mut Rng, inputs: &mut Vec<Input>) {
    for count in 0..64 {
        for enable in [u32::MAX, u32::MAX >> 1, any_enable(rng)] {
            let settings = settings_of((true, count % 2 == 0), enable);
            let bytes = three_events(rng, &settings, |_, words| {
                words[0] = with_count(words[0], count);
            });
            inputs.push(Input::new(format!("header count {}", count), bytes));
        }
    }
}

/// Every fault alone and every pair of faults, in the middle one of three events.
fn add_pairs_of_faults(rng: &mut Rng, inputs: &mut Vec<Input>) {
    for (number, one) in FAULTS.iter().enumerate() {
        for other in &FAULTS[number..] {
            let settings = settings_of((true, true), any_enable(rng) | 0x40000002);
            let bytes = three_events(rng, &settings, |rng, words| {
                break_event(rng, &settings, words, *one);
                if other != one {
                    break_event(rng, &settings, words, *other);
                }
            });
            inputs.push(Input::new(format!("{:?} and {:?}", one, other), bytes));
        }
    }
}
