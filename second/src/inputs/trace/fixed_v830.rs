//! Inputs of `trace` for a V830 that are the same in every comparison: document 01's own, and every edge.

use crate::inputs::input::Input;
use crate::inputs::trace::broken::{add_ends, add_heads};
use crate::inputs::trace::heads_v830::GEOS_ABOVE;
use crate::inputs::trace::scripts_v830::{
    every_call, scripts_830, set_up, MEMORY, NUMBER, SOFTWARE_TRIGGER,
};
use crate::listings::trace_head::{input_of, v830, Head};
use crate::model::block::BIT_26;
use crate::model::module::Call::{self, *};

/// The marked cases of document 01 that are about the V830.
pub fn marked_830() -> Vec<(&'static str, Head, Vec<Call>)> {
    let seven_and_nine = |control| {
        let mut calls = set_up(5, control);
        calls.extend([Pulses(0, 7), Pulses(2, 9), SOFTWARE_TRIGGER]);
        calls.extend([MEMORY; 4]);
        calls
    };
    let mut all_enabled = set_up(u32::MAX, 0x21);
    all_enabled.extend([Trigger, Trigger, NUMBER]);
    let mut one_word = set_up(1, 0x81);
    one_word.extend([Pulses(0, 4), Trigger, Pulses(0, 3), Trigger, Pulses(0, 2)]);
    one_word.extend([MEMORY, Read(0x1000, 32)]);
    vec![
        (
            "marked: enable 5, header, GEO 1",
            v830(1, 4, 0),
            seven_and_nine(0x21),
        ),
        ("marked: short format", v830(1, 4, 0), seven_and_nine(0x25)),
        (
            "marked: a memory of 65 words",
            v830(0, 65, 0),
            all_enabled.clone(),
        ),
        ("marked: one of 66 words", v830(0, 66, 0), all_enabled),
        ("marked: one word, AUTO RESET", v830(0, 1, 0), one_word),
    ]
}

/// The heads with which every script is run.
fn heads_830() -> Vec<Head> {
    let mut heads = vec![
        v830(1, 65, u32::MAX - 2),
        v830(31, 66, u32::MAX),
        v830(0, 1, 0),
        v830(7, 2, BIT_26 - 1),
        v830(17, 10, u32::MAX),
        v830(30, 7, BIT_26),
        v830(2, 33, 5),
        v830(16, 34, u32::MAX - 40),
        v830(8, 100, 0),
    ];
    heads[0].counts[31] = 0x1234_5678;
    heads[4].counts[0] = 0;
    heads
}

/// All fixed inputs of the V830.
pub fn fixed_v830_traces() -> Vec<Input> {
    let mut inputs = Vec::new();
    for (name, head, calls) in marked_830() {
        inputs.push(Input::new(name, input_of(&head, &calls, &[])));
    }
    let heads = heads_830();
    for (number, head) in heads.iter().enumerate() {
        for (script, calls) in scripts_830() {
            let name = format!("V830 head {}, {}", number, script);
            inputs.push(Input::new(name, input_of(head, &calls, &[])));
        }
    }
    add_heads("V830", &heads[0], &mut inputs);
    add_ends("V830", &heads[6], &mut inputs);
    add_starts(&mut inputs);
    add_past_26_bits(&mut inputs);
    inputs
}

/// Starts with every GEO and capacity at an edge, accepted and refused, and every call of them.
fn add_starts(inputs: &mut Vec<Input>) {
    let mut add = |geo: u32, capacity: u32| {
        let name = format!("V830 started with GEO {}, {} words", geo, capacity);
        let head = v830(geo, capacity, 9);
        inputs.push(Input::new(name, input_of(&head, &every_call(), &[])));
    };
    for geo in [0, 1, 15, 16, 31].iter().chain(&GEOS_ABOVE) {
        add(*geo, 3);
        add(*geo, 0);
    }
    for capacity in [1, 2, 32_767, 32_768, 32_769, 40_000] {
        add(5, capacity);
    }
    add(32, 40_000);
}

/// Counts of 2^26 and more in an event. Only a pulse entry of so many pulses brings them there, for
/// each Control write zeroes the counts of the head: these two runs alone give so many.
fn add_past_26_bits(inputs: &mut Vec<Input>) {
    for (format, control) in [("short", 0xA5), ("long", 0xA1)] {
        let mut calls = set_up(3, control);
        calls.extend([Pulses(1, BIT_26 + 5), Pulses(0, 6), Trigger]);
        calls.extend([Read(0x1004, 32), Pulses(1, 2), Trigger, MEMORY, MEMORY]);
        let name = format!("V830 counts past 2^26 in {} format", format);
        inputs.push(Input::new(name, input_of(&v830(9, 10, 0), &calls, &[])));
    }
}
