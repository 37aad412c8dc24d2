//! Cases that are the same in every run: document 01's own, and every edge in its turn.

use crate::inputs::logs::case::{frame, Case};
use crate::inputs::logs::entries::{good_log, values_outside};
use crate::inputs::numbers::{padded, EDGES};
use crate::inputs::rng::Rng;
use crate::listings::logs::LARGEST_LENGTH;
use crate::model::log::KINDS;
use crate::model::write_log::{entry_bytes, shortest};

/// Logs written down by hand, read from place 0: document 01's and those next to them.
const BY_HAND: [&[u8]; 22] = [
    &[],
    &[0xAC, 0x02],
    &[0xFF, 0xFF, 0xFF, 0xFF, 0x0F],
    &[0x80, 0x00],
    &[0x80, 0x80, 0x80, 0x80, 0x10],
    &[0x80, 0x80, 0x80, 0x80, 0x00],
    &[0x80, 0x80, 0x80, 0x80, 0x80],
    &[0x80, 0x80, 0x80, 0x80],
    &[0x00, 0x20],
    &[0x08],
    &[0x00, 0x00, 0x04, 0x02, 0x04],
    &[0x00, 0x1F, 0xAC, 0x02],
    &[0x00, 0x1F, 0xFF, 0xFF, 0xFF, 0xFF, 0x0F],
    &[0x01, 0x00, 0x01, 0x01, 0x01, 0x02],
    &[0x02, 0x03, 0x04, 0x07],
    &[0x05, 0xFF, 0xFF, 0x03, 0x10],
    &[0x05, 0x80, 0x80, 0x04, 0x10],
    &[0x05, 0x00, 0x11],
    &[0x06, 0x00, 0x10, 0xFF, 0xFF, 0x03],
    &[0x06, 0x00, 0x10, 0x80, 0x80, 0x04],
    &[0x06, 0x00, 0x20, 0x80, 0x80, 0x04],
    &[0x06, 0x00, 0x20, 0xFF, 0xFF, 0xFF, 0xFF, 0x0F],
];

/// Good arguments for each kind, in front of and behind the one that is tried.
const PLAIN: [&[u32]; 8] = [&[3, 5], &[1], &[], &[], &[], &[2, 16], &[2, 16, 9], &[]];
const WIDE: [&[u32]; 8] = [&[0, 1], &[0], &[], &[], &[], &[0, 32], &[0, 32, 0], &[]];

/// All fixed cases.
pub fn fixed_cases() -> Vec<Case> {
    let mut cases: Vec<Case> = BY_HAND.iter().map(|bytes| Case::new(0, bytes)).collect();
    cases.extend(starts());
    cases.extend(every_argument_edge());
    cases.extend(every_kind());
    cases.extend(every_last_byte());
    cases.push(longest_log());
    cases
}

/// A short log read from each of its places, from its end and from past it.
fn starts() -> Vec<Case> {
    let bytes = [0x00, 0x1F, 0xAC, 0x02, 0x06, 0x02, 0x10, 0x05];
    let far = [9, 127, 128, 60_000, 60_001, 65_534, 65_535];
    (0..=bytes.len())
        .chain(far)
        .flat_map(|start| vec![Case::new(start, &bytes), Case::new(start, &[])])
        .collect()
}

/// Every argument of every kind at every edge.
fn every_argument_edge() -> Vec<Case> {
    let mut cases = Vec::new();
    for (kind, expected) in KINDS.iter().enumerate() {
        for (position, argument) in expected.iter().enumerate() {
            for value in EDGES.iter().chain(values_outside(*argument)) {
                cases.extend(argument_edge(kind, position, *value));
            }
        }
    }
    cases
}

/// An entry with one argument of this value in front of a TEST, and with the number not in its shortest form.
fn argument_edge(kind: usize, position: usize, value: u32) -> Vec<Case> {
    let mut cases = Vec::new();
    for plain in [PLAIN[kind], WIDE[kind]] {
        let mut arguments = plain.to_vec();
        arguments[position] = value;
        let bytes = [entry_bytes(kind, &arguments), vec![2]].concat();
        cases.push(Case::new(0, &bytes));
    }
    let before = entry_bytes(kind, &PLAIN[kind][..position]);
    let bytes = [before, padded(value, 1), vec![1, 1, 1]].concat();
    cases.push(Case::new(0, &bytes));
    cases
}

/// Every kind of one group, and the edges above, each followed by what could be arguments.
fn every_kind() -> Vec<Case> {
    (0..300)
        .chain(EDGES)
        .map(|kind| Case::new(0, &[shortest(kind), vec![1, 16, 1]].concat()))
        .collect()
}

/// Every byte behind 0 to 4 groups, as the kind and as the number of pulses.
fn every_last_byte() -> Vec<Case> {
    let mut cases = Vec::new();
    for groups in 0..5 {
        for last in 0..=255 {
            let mut bytes = vec![0x80; groups];
            bytes.push(last);
            cases.push(Case::new(0, &bytes));
            bytes.splice(0..0, [0, 31]);
            cases.push(Case::new(0, &bytes));
        }
    }
    cases
}

/// Good entries that fill the longest log a case may hold.
fn longest_log() -> Case {
    let mut bytes = good_log(&mut Rng::new(1), 20_000);
    bytes.truncate(LARGEST_LENGTH as usize);
    Case::new(0, &bytes)
}

/// Inputs of `logcases` for runs of their own: each a fault of a head or a body, or no fault at an edge.
pub fn head_inputs() -> Vec<Vec<u8>> {
    let heads: [&[u8]; 19] = [
        &[],
        &[0x80],
        &[0x05],
        &[0x00, 0x80],
        &[0x80, 0x00],
        &[0x80, 0x00, 0x00],
        &[0x00, 0x80, 0x00],
        &[0x80, 0x80, 0x80, 0x80, 0x10],
        &[0x80, 0x80, 0x80, 0x80, 0x80, 0x00, 0x00],
        &[0x00, 0xFF, 0xFF, 0xFF, 0xFF, 0x1F],
        &[0x80, 0x80, 0x04],
        &[0x80, 0x80, 0x04, 0x80, 0x00],
        &[0xFF, 0xFF, 0xFF, 0xFF, 0x0F, 0x00],
        &[0x00, 0xE1, 0xD4, 0x03],
        &[0x00, 0x80, 0x80, 0x04, 0x02],
        &[0x00, 0xE0, 0xD4, 0x03, 0x02],
        &[0x00, 0x01],
        &[0x00, 0x05, 0x02, 0x02, 0x02, 0x02],
        &[0xFF, 0xFF, 0x03, 0x00],
    ];
    let mut before = Vec::new();
    frame(&mut before, &Case::new(1, &[2, 3, 4, 8]));
    frame(&mut before, &Case::new(0, &[]));
    let mut inputs = Vec::new();
    for head in heads {
        inputs.push(head.to_vec());
        inputs.push([&before[..], head].concat());
    }
    inputs.push([&[0x00, 0xE0, 0xD4, 0x03][..], &[2; 59_999]].concat());
    inputs.push([&[0x00, 0xE0, 0xD4, 0x03][..], &[2; 60_000], &[0x80]].concat());
    inputs
}
