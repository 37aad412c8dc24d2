//! Makes log entries: good ones at the edges of their ranges, and ones with a fault.

use crate::inputs::numbers::{any_half_word, any_value, odd_number};
use crate::inputs::rng::Rng;
use crate::model::log::{Argument, KINDS};
use crate::model::write_log::{entry_bytes, numbers_of, shortest};

/// Kinds above 7 of one to five groups, some of them good once cut to 3, 7, 8 or 16 bits.
const HIGH_KINDS: [u32; 16] = [
    8, 9, 10, 13, 16, 64, 127, 128, 133, 256, 16_384, 65_536, 65_541, 2_097_152, 0x80000000,
    0xFFFFFFFF,
];

/// Values outside an argument's range, some of them good once cut to fewer bits.
pub fn values_outside(argument: Argument) -> &'static [u32] {
    match argument {
        Argument::Channel => &[
            32, 33, 63, 64, 127, 128, 159, 256, 287, 16_384, 65_536, 65_567, 0x80000000,
            0xFFFFFFE0, 0xFFFFFFFF,
        ],
        Argument::HowMany => &[],
        Argument::Line => &[
            2, 3, 127, 128, 129, 256, 257, 16_384, 65_536, 65_537, 0x80000000, 0xFFFFFFFE,
            0xFFFFFFFF,
        ],
        Argument::Offset | Argument::Data => &[
            65_536, 65_537, 65_663, 98_304, 131_071, 131_072, 0x1000000, 0x10000000, 0x80000000,
            0xFFFF0000, 0xFFFFFFFF,
        ],
        Argument::Width => &[
            0, 1, 8, 15, 17, 18, 24, 31, 33, 34, 48, 63, 64, 127, 128, 144, 160, 272, 288, 2_064,
            65_552, 65_568, 0xFFFFFFF0, 0xFFFFFFFF,
        ],
    }
}

/// A value inside an argument's range; data fits `width`.
fn value_inside(rng: &mut Rng, argument: Argument, width: u32) -> u32 {
    match argument {
        Argument::Channel if rng.one_in(2) => rng.pick(&[0, 1, 15, 16, 30, 31]),
        Argument::Channel => rng.below(32) as u32,
        Argument::HowMany => any_value(rng),
        Argument::Line => rng.below(2) as u32,
        Argument::Width => width,
        Argument::Data if width == 32 => any_value(rng),
        Argument::Offset | Argument::Data => any_half_word(rng),
    }
}

/// A good entry, as its kind and arguments.
fn good_values(rng: &mut Rng) -> (usize, Vec<u32>) {
    let kind = rng.below(KINDS.len());
    (kind, good_arguments(rng, kind))
}

/// Good arguments for a kind.
fn good_arguments(rng: &mut Rng, kind: usize) -> Vec<u32> {
    let width = rng.pick(&[16, 32]);
    KINDS[kind]
        .iter()
        .map(|argument| value_inside(rng, *argument, width))
        .collect()
}

/// A good entry.
pub fn good_entry(rng: &mut Rng) -> Vec<u8> {
    let (kind, arguments) = good_values(rng);
    entry_bytes(kind, &arguments)
}

/// Several good entries, one behind the other.
pub fn good_log(rng: &mut Rng, entries: usize) -> Vec<u8> {
    (0..entries).flat_map(|_| good_entry(rng)).collect()
}

/// An entry of which one argument is outside its range, or any value.
pub fn edge_entry(rng: &mut Rng) -> Vec<u8> {
    let kind = rng.pick(&[0, 1, 5, 6]);
    let mut arguments = good_arguments(rng, kind);
    let position = rng.below(arguments.len());
    let outside = values_outside(KINDS[kind][position]);
    arguments[position] = if outside.is_empty() || rng.one_in(3) {
        any_value(rng)
    } else {
        rng.pick(outside)
    };
    entry_bytes(kind, &arguments)
}

/// An entry of which one number is written oddly.
pub fn odd_entry(rng: &mut Rng) -> Vec<u8> {
    let (kind, arguments) = good_values(rng);
    let mut numbers = numbers_of(kind, &arguments);
    let position = rng.below(numbers.len());
    numbers[position] = odd_number(rng);
    numbers.concat()
}

/// An entry of a kind above 7, followed by what could be its arguments.
pub fn high_kind_entry(rng: &mut Rng) -> Vec<u8> {
    let kind = match any_value(rng) {
        value if value > 7 && rng.one_in(2) => value,
        _ => rng.pick(&HIGH_KINDS),
    };
    let mut bytes = shortest(kind);
    for _ in 0..rng.below(4) {
        bytes.extend(shortest(any_value(rng)));
    }
    bytes
}
