//! Inputs of `trace` that are the same in every comparison: document 01's own, and every edge.

use crate::inputs::input::Input;
use crate::inputs::trace::broken::{add_ends, add_heads};
use crate::inputs::trace::fixed_v830::fixed_v830_traces;
use crate::inputs::trace::scripts::{scripts, ARMED, REMOVAL};
use crate::listings::trace_head::{input_of, v260, v560, Head};
use crate::model::module::Call::{self, *};
use crate::model::scaler::CHANNELS;
use crate::model::v260::ALL_ONES_24;

/// Counts just below each watched bit.
const BELOW_15: u32 = 0x7FFF;
const BELOW_23: u32 = 0x7F_FFFF;
const BELOW_31: u32 = 0x7FFF_FFFF;

/// Counts of which the even and the odd channels have these.
fn in_turn(even: u32, odd: u32) -> [u32; CHANNELS] {
    let mut counts = [even; CHANNELS];
    counts
        .iter_mut()
        .skip(1)
        .step_by(2)
        .for_each(|count| *count = odd);
    counts
}

/// All counts 0 but for a few, from channel `first` on.
fn counts_from(first: usize, few: &[u32]) -> [u32; CHANNELS] {
    let mut counts = [0; CHANNELS];
    counts[first..first + few.len()].copy_from_slice(few);
    counts
}

/// The marked cases of document 01 that are about counting in a V260 or a V560.
pub fn marked() -> [(&'static str, Head, Vec<Call>); 3] {
    [
        (
            "marked: V560 joined, low FFFFFFFF, high 0",
            v560(1, counts_from(1, &[u32::MAX])),
            vec![Pulses(1, 1)],
        ),
        (
            "marked: V260, 4 and 5 joined",
            v260([0x30, 0, 0, 1], counts_from(3, &[ALL_ONES_24, 0, 0])),
            vec![Pulses(3, 1)],
        ),
        (
            "marked: V260 count 5",
            v260([0, 0, 0, 1], counts_from(0, &[5])),
            vec![
                Read(0x10, 32),
                VetoLine(true),
                Read(0x10, 32),
                VetoLine(false),
                Read(0x52, 16),
                Read(0x10, 32),
            ],
        ),
    ]
}

/// The heads of the V260 with which every script is run.
fn heads_260() -> Vec<Head> {
    let all = [ALL_ONES_24; CHANNELS];
    let joins = [
        0x0030, 0x0001, 0x8001, 0x0010, 0xFFFE, 0x7FFF, 0xFFFF, 0xAAAA,
    ];
    let mut heads: Vec<Head> = joins
        .map(|joined| v260([joined, 0xFFFF, 3, 5], all))
        .to_vec();
    heads.extend([
        v260([0, 0xFFFF, 0, 5], [BELOW_15; CHANNELS]),
        v260([0, 0xFFFF, 3, 1], [BELOW_23; CHANNELS]),
        v260([0, 0x5A5A, 1, 7], in_turn(BELOW_15 + 0x30000, BELOW_23)),
        v260([0, 0xA5A5, 2, 2], in_turn(BELOW_23, BELOW_15 + 0x30000)),
        v260([0, 0xFFFF, 1, 3], in_turn(BELOW_15, BELOW_23)),
        v260([0, 0xFFFF, 2, 3], in_turn(BELOW_15, BELOW_23)),
        v260([0, 0xFFFF, 2, 0], [BELOW_23; CHANNELS]),
        v260([0, 0, 3, 4], [BELOW_23; CHANNELS]),
        v260([0xAAAA, 0xFFFF, 3, 6], in_turn(ALL_ONES_24, BELOW_23)),
        v260([0xAAAA, 0xFFFF, 0, 6], in_turn(ALL_ONES_24, BELOW_15)),
        v260([0x5555, 0xFFFF, 1, 6], in_turn(BELOW_23, ALL_ONES_24)),
        v260([0, 0xFFFF, 3, 8], [BELOW_23; CHANNELS]),
        v260([1, 0xFFFF, 3, u32::MAX], [BELOW_23; CHANNELS]),
        v260([1, 0xFFFF, 3, 1], counts_from(9, &[1 << 24])),
    ]);
    heads
}

/// The heads of the V560 with which every script is run.
fn heads_560() -> Vec<Head> {
    vec![
        v560(0, [BELOW_31; CHANNELS]),
        v560(0, [u32::MAX; CHANNELS]),
        v560(0, [0; CHANNELS]),
        v560(0xFF, in_turn(BELOW_31, u32::MAX)),
        v560(0xFF, in_turn(u32::MAX, BELOW_31)),
        v560(0xFF, [BELOW_31; CHANNELS]),
        v560(0x5A, in_turn(BELOW_31, u32::MAX)),
        v560(0xA5, [BELOW_31; CHANNELS]),
        v560(0x01, in_turn(0, u32::MAX)),
        v560(0x80, [0x1234_FFFF; CHANNELS]),
    ]
}

/// All fixed inputs.
pub fn fixed_traces() -> Vec<Input> {
    let mut inputs: Vec<Input> = Vec::new();
    for (name, head, calls) in marked() {
        inputs.push(Input::new(name, input_of(&head, &calls, &[])));
    }
    for (module, heads) in [("V260", heads_260()), ("V560", heads_560())] {
        for (number, head) in heads.iter().enumerate() {
            for (script, calls) in scripts() {
                let name = format!("{} head {}, {}", module, number, script);
                inputs.push(Input::new(name, input_of(head, &calls, &[])));
            }
        }
        add_heads(module, &heads[0], &mut inputs);
        add_ends(module, &heads[0], &mut inputs);
    }
    add_depths(&mut inputs);
    add_refusals(&mut inputs);
    inputs.extend(fixed_v830_traces());
    inputs
}

/// Carries of a V260 over every number of channels, from several first channels.
fn add_depths(inputs: &mut Vec<Input>) {
    for first in [0, 3, 15] {
        for depth in 0..CHANNELS {
            let mut counts = [BELOW_23; CHANNELS];
            for step in 0..depth {
                counts[(first + step) % CHANNELS] = ALL_ONES_24;
            }
            let head = v260([0xFFFF ^ 1 << first, 0xFFFF, 3, 2], counts);
            let first = first as u32;
            let calls = [
                Pulses(first, 0),
                Pulses(first, 1),
                REMOVAL,
                Pulses(first, 2),
            ];
            let calls = [&ARMED[..], &calls].concat();
            let name = format!("V260 carry from {} over {}", first, depth);
            inputs.push(Input::new(name, input_of(&head, &calls, &[])));
        }
    }
}

/// Starts that are refused and records that are malformed, and every call of them.
fn add_refusals(inputs: &mut Vec<Input>) {
    let calls = [
        Trigger,
        Pulses(0, 1),
        Pulses(16, 1),
        VetoLine(true),
        Test,
        ClearLine,
        ManClr,
        Read(0x10, 16),
        Read(0x10, 32),
        Read(0x12, 16),
        Read(0x00, 16),
        Read(0x08, 32),
        Write(0x10, 16, 0),
        Write(0x50, 16, 0),
    ];
    for level in [0, 7, 8, 9, 15, 255, 256, 263, 65_536, 0x8000_0000, u32::MAX] {
        for joined in [0, 1] {
            let head = v260([joined, 0x1234, 2, level], [9; CHANNELS]);
            let name = format!("V260 started at level {}, joined {}", level, joined);
            inputs.push(Input::new(name, input_of(&head, &calls, &[])));
        }
    }
    for channel in 0..CHANNELS {
        for count in [ALL_ONES_24, 1 << 24, u32::MAX] {
            let head = v260([0, 0xFFFF, 1, 1], counts_from(channel, &[count]));
            let name = format!("V260 count {} of {}", channel, count);
            inputs.push(Input::new(name, input_of(&head, &calls, &[])));
        }
    }
}
