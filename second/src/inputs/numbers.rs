//! Makes log numbers: well written, and written wrong in every way document 01 names.

use crate::inputs::rng::Rng;
use crate::model::write_log::shortest;

/// Values at and around the edges of every range and of every number of groups.
pub const EDGES: [u32; 36] = [
    0, 1, 2, 7, 8, 15, 16, 17, 30, 31, 32, 33, 127, 128, 129, 255, 256, 16_383, 16_384, 16_385,
    32_767, 32_768, 65_534, 65_535, 65_536, 65_537, 2_097_151, 2_097_152, 0xFFFFFF, 0x1000000,
    0xFFFFFFF, 0x10000000, 0x7FFFFFFF, 0x80000000, 0xFFFFFFFE, 0xFFFFFFFF,
];

/// Fifth bytes on both sides of 0F, with and without the top bit.
pub const FIFTH_BYTES: [u8; 12] = [
    0x00, 0x01, 0x0E, 0x0F, 0x10, 0x11, 0x1F, 0x7F, 0x80, 0x8F, 0x90, 0xFF,
];

/// A number with `more` groups of 0 behind its shortest form, which is so no longer the shortest.
pub fn padded(value: u32, more: usize) -> Vec<u8> {
    let mut bytes = shortest(value);
    for _ in 0..more {
        *bytes.last_mut().expect("a number has a byte") |= 0x80;
        bytes.push(0);
    }
    bytes
}

/// Any value: an edge, or a random one of a random number of groups.
pub fn any_value(rng: &mut Rng) -> u32 {
    if rng.one_in(2) {
        return rng.pick(&EDGES);
    }
    let groups = rng.between(1, 5);
    let bits = (7 * groups).min(32);
    (rng.word() >> (64 - bits)) as u32
}

/// Any value below 65,536: an edge or a random one.
pub fn any_half_word(rng: &mut Rng) -> u32 {
    match any_value(rng) {
        value if value < 65_536 => value,
        value => value >> 16,
    }
}

/// A number written in one of the ways that are, or may be, faults.
pub fn odd_number(rng: &mut Rng) -> Vec<u8> {
    match rng.below(4) {
        0 => padded(any_value(rng), rng.between(1, 4)),
        1 => {
            let mut bytes = following(rng, 4);
            bytes.push(rng.pick(&FIFTH_BYTES));
            bytes
        }
        2 => {
            let groups = rng.between(1, 8);
            following(rng, groups)
        }
        _ => {
            let mut bytes = following(rng, 4);
            bytes.push(rng.byte());
            bytes
        }
    }
}

/// Groups that each say that more follows.
fn following(rng: &mut Rng, groups: usize) -> Vec<u8> {
    let fill = rng.pick(&[0x80, 0xFF, 0x81]);
    (0..groups)
        .map(|_| {
            if rng.one_in(3) {
                rng.byte() | 0x80
            } else {
                fill
            }
        })
        .collect()
}

#[cfg(test)]
mod tests {
    use super::*;

    #[test]
    fn numbers_are_written_as_document_01_writes_them() {
        assert_eq!(shortest(0), [0]);
        assert_eq!(shortest(127), [0x7F]);
        assert_eq!(shortest(300), [0xAC, 0x02]);
        assert_eq!(shortest(u32::MAX), [0xFF, 0xFF, 0xFF, 0xFF, 0x0F]);
        assert_eq!(padded(0, 1), [0x80, 0]);
        assert_eq!(padded(300, 2), [0xAC, 0x82, 0x80, 0]);
    }
}
