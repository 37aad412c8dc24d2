//! Makes the random cases: good logs, damaged ones and pure noise, all from one seed.

use crate::inputs::logs::case::Case;
use crate::inputs::logs::entries::{edge_entry, good_entry, good_log, high_kind_entry, odd_entry};
use crate::inputs::numbers::{any_value, odd_number};
use crate::inputs::rng::Rng;
use crate::listings::logs::LARGEST_START;
use crate::model::write_log::shortest;

/// Bytes that mean something at one place of an entry or another.
const TELLING_BYTES: [u8; 28] = [
    0x00, 0x01, 0x02, 0x03, 0x04, 0x05, 0x06, 0x07, 0x08, 0x0F, 0x10, 0x11, 0x1F, 0x20, 0x21, 0x7F,
    0x80, 0x81, 0x84, 0x87, 0x88, 0x8F, 0x90, 0xA0, 0xAC, 0xF0, 0xFE, 0xFF,
];

/// A way of making cases: adds one or more to those made so far.
type Maker = fn(&mut Rng, &mut Vec<Case>);

/// The makers, each with its share of the turns.
const MAKERS: [(usize, Maker); 9] = [
    (6, add_good),
    (10, |rng, cases| add_faulty(rng, cases, edge_entry)),
    (10, |rng, cases| add_faulty(rng, cases, odd_entry)),
    (4, |rng, cases| add_faulty(rng, cases, high_kind_entry)),
    (1, add_cut_everywhere),
    (12, add_damaged),
    (8, add_noise),
    (8, add_started_elsewhere),
    (4, add_number),
];

/// Makes exactly `count` cases from the seed.
pub fn make_cases(seed: u64, count: usize) -> Vec<Case> {
    let mut rng = Rng::new(seed);
    let mut cases = Vec::new();
    while cases.len() < count {
        rng.pick_by_share(&MAKERS)(&mut rng, &mut cases);
    }
    cases.truncate(count);
    cases
}

/// Good entries only; the log ends between two of them.
fn add_good(rng: &mut Rng, cases: &mut Vec<Case>) {
    let entries = rng.below(9);
    cases.push(Case::new(0, &good_log(rng, entries)));
}

/// Good entries, then one that is or may be faulty, then good ones again.
fn add_faulty(rng: &mut Rng, cases: &mut Vec<Case>, faulty: fn(&mut Rng) -> Vec<u8>) {
    let (before, after) = (rng.below(4), rng.below(3));
    let mut bytes = good_log(rng, before);
    bytes.extend(faulty(rng));
    bytes.extend(good_log(rng, after));
    cases.push(Case::new(0, &bytes));
}

/// One good log cut at each of its bytes.
fn add_cut_everywhere(rng: &mut Rng, cases: &mut Vec<Case>) {
    let entries = rng.between(1, 4);
    let bytes = good_log(rng, entries);
    for length in 0..bytes.len() {
        cases.push(Case::new(0, &bytes[..length]));
    }
}

/// A good log with bytes changed, inserted and removed.
fn add_damaged(rng: &mut Rng, cases: &mut Vec<Case>) {
    let entries = rng.between(1, 6);
    let mut bytes = good_log(rng, entries);
    for _ in 0..rng.between(1, 4) {
        damage(rng, &mut bytes);
    }
    cases.push(Case::new(0, &bytes));
}

/// Changes, inserts or removes one byte, or turns one bit.
pub fn damage(rng: &mut Rng, bytes: &mut Vec<u8>) {
    let place = rng.below(bytes.len() + 1);
    if place == bytes.len() || rng.one_in(4) {
        bytes.insert(place, noise_byte(rng));
        return;
    }
    match rng.below(3) {
        0 => bytes[place] = noise_byte(rng),
        1 => bytes[place] ^= 1 << rng.below(8),
        _ => {
            bytes.remove(place);
        }
    }
}

/// A byte of any value, or one that means something.
fn noise_byte(rng: &mut Rng) -> u8 {
    if rng.one_in(2) {
        rng.byte()
    } else {
        rng.pick(&TELLING_BYTES)
    }
}

/// Pure noise, at times of telling bytes only.
fn add_noise(rng: &mut Rng, cases: &mut Vec<Case>) {
    let length = rng.below(25);
    let telling = rng.one_in(2);
    let bytes: Vec<u8> = (0..length)
        .map(|_| {
            if telling {
                rng.pick(&TELLING_BYTES)
            } else {
                rng.byte()
            }
        })
        .collect();
    cases.push(Case::new(0, &bytes));
}

/// A log read from inside an entry, from its end or from past its end.
fn add_started_elsewhere(rng: &mut Rng, cases: &mut Vec<Case>) {
    let entries = rng.below(6);
    let mut bytes = good_log(rng, entries);
    if rng.one_in(2) {
        damage(rng, &mut bytes);
    }
    let end = bytes.len();
    let start = match rng.below(8) {
        0 => end,
        1 => end + 1,
        2 => rng.between(end, LARGEST_START as usize),
        3 => rng.pick(&[127, 128, 16_383, 16_384, 65_534, 65_535]),
        _ => rng.between(0, end),
    };
    cases.push(Case::new(start, &bytes));
}

/// A number by itself or in front of a good entry, which may make it longer.
fn add_number(rng: &mut Rng, cases: &mut Vec<Case>) {
    let mut bytes = if rng.one_in(2) {
        odd_number(rng)
    } else {
        shortest(any_value(rng))
    };
    if rng.one_in(2) {
        bytes.extend(good_entry(rng));
    }
    cases.push(Case::new(0, &bytes));
}

#[cfg(test)]
mod tests {
    use super::*;

    #[test]
    fn a_seed_repeats_its_cases_and_another_differs() {
        assert_eq!(make_cases(7, 500), make_cases(7, 500));
        assert_ne!(make_cases(7, 500), make_cases(8, 500));
        assert_eq!(make_cases(7, 501).len(), 501);
    }
}
