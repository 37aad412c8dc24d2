//! Makes the heads of random traces: joins of every shape, and counts near where something happens.

use crate::inputs::rng::Rng;
use crate::listings::trace_head::{Head, HeadSwitches};
use crate::model::scaler::CHANNELS;
use crate::model::v260::ALL_ONES_24;

/// Every shape of joins of a V260, and of a V560.
pub const SHAPES_260: [&str; 6] = [
    "none",
    "one pair",
    "several",
    "round past 15",
    "fifteen",
    "sixteen",
];
pub const SHAPES_560: [&str; 3] = ["none", "some", "all"];

/// The shape of a V260's joins.
pub fn shape_260(joined: u32) -> &'static str {
    match (joined.count_ones(), joined & 1) {
        (0, _) => "none",
        (16, _) => "sixteen",
        (15, _) => "fifteen",
        (_, 1) => "round past 15",
        (1, _) => "one pair",
        _ => "several",
    }
}

/// The shape of a V560's joins.
pub fn shape_560(joined: u32) -> &'static str {
    match joined {
        0 => "none",
        0xFF => "all",
        _ => "some",
    }
}

/// Joins of a V260: none in every third, else of any shape.
fn any_joins_260(rng: &mut Rng) -> u32 {
    let any = rng.word() as u32 & 0xFFFF;
    match rng.below(12) {
        0..=3 => 0,
        4 => 1 << rng.below(CHANNELS),
        5 => any | 1,
        6 => any & 0xFFFE,
        7 => any | rng.word() as u32 & 0xFFFF,
        8 => 3 << rng.below(15),
        9 => 0xFFFF ^ 1 << rng.below(CHANNELS),
        10 => 0xFFFF,
        _ => any,
    }
}

/// Joins of a V560: none in every third, else some or all.
fn any_joins_560(rng: &mut Rng) -> u32 {
    match rng.below(6) {
        0 | 1 => 0,
        2 => 0xFF,
        3 => 1 << rng.below(8),
        _ => rng.word() as u32 & 0xFF,
    }
}

/// Each bit mostly set, or mostly not, or all, or none.
fn any_mask(rng: &mut Rng, all: u32) -> u32 {
    let (one, other) = (rng.word() as u32, rng.word() as u32);
    all & match rng.below(6) {
        0 | 1 => all,
        2 => one & other,
        3 => one,
        4 if rng.one_in(2) => 0,
        _ => one | other,
    }
}

/// Levels above 8, some of them good once cut to fewer bits.
const LEVELS_ABOVE: [u32; 9] = [9, 15, 16, 255, 256, 263, 65_536, 0x8000_0007, 0xFFFF_FFFF];

/// A level: mostly one that requests, at times 0, now and then one above 7.
fn any_level(rng: &mut Rng) -> u32 {
    match rng.below(24) {
        0 if rng.one_in(2) => 8,
        0 => rng.pick(&LEVELS_ABOVE),
        1..=4 => 0,
        _ => rng.between(1, 7) as u32,
    }
}

/// How far before an event a count stands: not at all, a little, or some hundreds.
pub fn any_distance(rng: &mut Rng) -> u32 {
    match rng.below(4) {
        0 => 0,
        1 => rng.below(4) as u32,
        2 => rng.below(40) as u32,
        _ => rng.below(400) as u32,
    }
}

/// A count of so many bits shortly before it wraps, before a watched bit, near 0, or anywhere.
fn any_count(rng: &mut Rng, all_ones: u32) -> u32 {
    let distance = any_distance(rng);
    let any = rng.word() as u32;
    let top = all_ones / 2;
    all_ones
        & match rng.below(8) {
            0 => all_ones,
            1 | 2 => all_ones - distance,
            3 | 4 => top - distance,
            5 => (any & !0xFFFF | 0x7FFF) - distance,
            6 => distance / 4,
            _ => any,
        }
}

/// Counts that are each made for themselves.
fn any_counts(rng: &mut Rng, all_ones: u32) -> [u32; CHANNELS] {
    [0; CHANNELS].map(|_| any_count(rng, all_ones))
}

/// Counts that are mostly all ones, so that carries go far.
fn chained_counts(rng: &mut Rng, all_ones: u32) -> [u32; CHANNELS] {
    [0; CHANNELS].map(|_| match rng.below(6) {
        0 => any_count(rng, all_ones),
        1 => all_ones / 2,
        _ => all_ones,
    })
}

/// Counts that all stand before the top bit or, one in so many, before bit 15.
fn watched_counts(rng: &mut Rng, all_ones: u32, one_in: usize) -> [u32; CHANNELS] {
    [0; CHANNELS].map(|_| {
        let distance = any_distance(rng);
        let any = rng.word() as u32 & all_ones;
        match rng.below(one_in) {
            0 => (any & !0xFFFF | 0x7FFF) - distance,
            _ => all_ones / 2 - distance,
        }
    })
}

/// Fifteen joined channels, of which so many that follow the first one are all ones.
fn deep_chain(rng: &mut Rng) -> (u32, [u32; CHANNELS]) {
    let (first, depth) = (rng.below(CHANNELS), rng.below(CHANNELS));
    let mut counts = any_counts(rng, ALL_ONES_24);
    for step in 0..depth {
        counts[(first + step) % CHANNELS] = ALL_ONES_24;
    }
    if depth > 0 {
        counts[first] -= rng.below(3) as u32;
    }
    counts[(first + depth) % CHANNELS] &= !(1 << rng.below(20));
    (0xFFFF ^ 1 << first, counts)
}

/// A V260's head.
pub fn head_260(rng: &mut Rng) -> Head {
    let mut joined = any_joins_260(rng);
    let mut counts = any_counts(rng, ALL_ONES_24);
    match rng.below(10) {
        0 | 1 => {
            let deep = deep_chain(rng);
            joined = deep.0;
            counts = deep.1;
        }
        2 | 3 => counts = chained_counts(rng, ALL_ONES_24),
        4..=6 => counts = watched_counts(rng, ALL_ONES_24, 2),
        _ => {}
    }
    if rng.one_in(25) {
        let channel = rng.below(CHANNELS);
        counts[channel] = rng.pick(&[1 << 24, 1 << 24 | 5, 1 << 31, u32::MAX]);
    }
    let (interrupts, jumpers) = (any_mask(rng, 0xFFFF), rng.below(4) as u32);
    let switches = HeadSwitches::V260([joined, interrupts, jumpers, any_level(rng)]);
    let counts = counts.to_vec();
    Head { switches, counts }
}

/// A V560's head.
pub fn head_560(rng: &mut Rng) -> Head {
    let counts = match rng.below(10) {
        0..=2 => chained_counts(rng, u32::MAX),
        3..=6 => watched_counts(rng, u32::MAX, 8),
        _ => any_counts(rng, u32::MAX),
    };
    let switches = HeadSwitches::V560([any_joins_560(rng)]);
    let counts = counts.to_vec();
    Head { switches, counts }
}

#[cfg(test)]
mod tests {
    use super::*;

    #[test]
    fn shapes_of_joins() {
        let shapes = [
            (0, "none"),
            (0x0010, "one pair"),
            (0x0030, "several"),
            (0x0012, "several"),
            (0x0001, "round past 15"),
            (0x8001, "round past 15"),
            (0xFFFE, "fifteen"),
            (0x7FFF, "fifteen"),
            (0xFFFF, "sixteen"),
        ];
        for (joined, shape) in shapes {
            assert_eq!(shape_260(joined), shape, "{:X}", joined);
            assert!(SHAPES_260.contains(&shape));
        }
        assert_eq!(
            [0, 1, 0xFE, 0xFF].map(shape_560),
            ["none", "some", "some", "all"]
        );
    }
}
