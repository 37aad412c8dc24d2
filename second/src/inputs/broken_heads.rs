//! Breaks the numbers of a head in every way that has a number.

use crate::inputs::numbers::{any_value, odd_number, padded};
use crate::inputs::rng::Rng;
use crate::model::write_log::{numbers_bytes, shortest};

/// The head with the bytes of one number exchanged.
fn exchanged(numbers: &[u32], position: usize, bytes: &[u8]) -> Vec<u8> {
    let before = numbers_bytes(&numbers[..position]);
    let after = numbers_bytes(&numbers[position + 1..]);
    [&before, bytes, &after].concat()
}

/// A good head cut in front of each number and inside it.
pub fn every_cut_head(numbers: &[u32]) -> Vec<Vec<u8>> {
    let mut heads = Vec::new();
    for position in 0..numbers.len() {
        let before = numbers_bytes(&numbers[..position]);
        heads.push([&before[..], &[0x80]].concat());
        heads.push([&before[..], &[0xFF; 4]].concat());
        heads.push(before);
    }
    heads
}

/// A good head broken at each number; `limits` are positions and the largest values there.
pub fn every_broken_head(numbers: &[u32], limits: &[(usize, u32)]) -> Vec<Vec<u8>> {
    let mut heads = Vec::new();
    for (position, value) in numbers.iter().enumerate() {
        let five_groups = [0x80, 0x80, 0x80, 0x80, 0x00];
        let too_large = [0xFF, 0xFF, 0xFF, 0xFF, 0x1F];
        heads.push(exchanged(numbers, position, &padded(*value, 1)));
        heads.push(exchanged(numbers, position, &five_groups));
        heads.push(exchanged(numbers, position, &too_large));
        heads.push(exchanged(numbers, position, &[0x80; 5]));
    }
    for (position, largest) in limits {
        for more in [0, 1, 128, 256, 65_536, 0x80000000, u32::MAX - largest] {
            let value = largest + more;
            heads.push(exchanged(numbers, *position, &shortest(value)));
        }
    }
    heads
}

/// Two faults in one head, of which the first is told: a limit passed and an odd number.
pub fn two_faults(numbers: &[u32], limits: &[(usize, u32)]) -> Vec<Vec<u8>> {
    let mut heads = Vec::new();
    for (limited, largest) in limits {
        for odd in (0..numbers.len()).filter(|odd| odd != limited) {
            let too_large = [0xFF, 0xFF, 0xFF, 0xFF, 0x10];
            let bytes = [&[0x81, 0x00][..], &too_large][odd % 2];
            let mut above = numbers.to_vec();
            above[*limited] = *largest + 1;
            heads.push(exchanged(&above, odd, bytes));
        }
        let mut above = numbers[..=*limited].to_vec();
        above[*limited] = *largest + 1;
        heads.push(numbers_bytes(&above));
    }
    heads
}

/// A head that is, or may be, broken at one number or two, or cut.
pub fn broken_head(rng: &mut Rng, numbers: &[u32], limits: &[(usize, u32)]) -> Vec<u8> {
    let mut parts: Vec<Vec<u8>> = numbers.iter().map(|value| shortest(*value)).collect();
    for _ in 0..rng.between(1, 2) {
        let position = rng.below(parts.len());
        let (limited, largest) = rng.pick(limits);
        match rng.below(3) {
            0 => parts[limited] = shortest(any_value(rng).max(largest + 1)),
            1 => parts[position] = padded(numbers[position], rng.between(1, 2)),
            _ => parts[position] = odd_number(rng),
        }
    }
    let mut bytes = parts.concat();
    if rng.one_in(3) {
        bytes.truncate(rng.below(bytes.len() + 1));
    }
    bytes
}
