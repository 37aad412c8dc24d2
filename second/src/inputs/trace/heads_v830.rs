//! Makes the heads of random traces of a V830: memories of every size, counts near their edges.

use crate::inputs::rng::Rng;
use crate::inputs::trace::heads::any_distance;
use crate::listings::trace_head::{Head, HeadSwitches};
use crate::model::block::{BIT_26, CHANNELS, LARGEST_GEO};

/// GEOs above 31, some of them good once cut to fewer bits.
pub const GEOS_ABOVE: [u32; 8] = [32, 33, 63, 255, 256, 65_537, 0x8000_0001, u32::MAX];

/// Capacities around whole numbers of the longest events, of 32 and of 33 words.
const EVENTS_AND_ONE: [u32; 10] = [31, 32, 33, 34, 63, 64, 65, 66, 67, 99];

/// A GEO, now and then one above 31.
fn any_geo(rng: &mut Rng) -> u32 {
    match rng.below(32) {
        0 => rng.pick(&GEOS_ABOVE),
        1 | 2 => LARGEST_GEO,
        _ => rng.below(32) as u32,
    }
}

/// A capacity: mostly up to 100, at times the largest, now and then one that is refused.
fn any_capacity(rng: &mut Rng) -> u32 {
    match rng.below(100) {
        0 => 32_768,
        1 if rng.one_in(2) => 32_769,
        1 => rng.pick(&[40_000, 39_999, 32_767, 1_023, 1_024, 1_025]),
        2 => 0,
        3..=9 => 1,
        10..=39 => rng.between(2, 12) as u32,
        40..=54 => rng.pick(&EVENTS_AND_ONE),
        _ => rng.between(2, 100) as u32,
    }
}

/// A count shortly before it wraps, around 2^26, near 0, or anywhere.
fn any_count(rng: &mut Rng) -> u32 {
    let distance = any_distance(rng);
    match rng.below(8) {
        0 => u32::MAX,
        1..=3 => u32::MAX - distance,
        4 => BIT_26 - distance,
        5 => BIT_26 - 1 + distance,
        6 => distance / 4,
        _ => rng.word() as u32,
    }
}

/// A V830's head.
pub fn head_830(rng: &mut Rng) -> Head {
    let geo = any_geo(rng);
    let capacity = match geo > LARGEST_GEO && rng.one_in(3) {
        true => rng.pick(&[0, 0, 0, 32_769]),
        false => any_capacity(rng),
    };
    let switches = HeadSwitches::V830([geo, capacity]);
    let counts = (0..CHANNELS).map(|_| any_count(rng)).collect();
    Head { switches, counts }
}
