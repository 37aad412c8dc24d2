//! Tests of the V260, all reckoned by hand.

use crate::listings::own_module::own_start;
use crate::listings::trace_head::v260;
use crate::model::module::{Call, Call::*, Module};
use crate::model::scaler::{Scaler, CHANNELS};

/// A V260 with these joined, interrupts, jumpers and level, and these counts.
fn started(switches: [u32; 4], counts: [u32; CHANNELS]) -> Box<dyn Scaler> {
    let (_, module) = own_start(&v260(switches, counts));
    module.into_scaler().expect("a V260")
}

/// The answer and the value of each call, one behind the other.
fn given(module: &mut Box<dyn Scaler>, calls: &[Call]) -> Vec<(u32, u32)> {
    let given = calls.iter().map(|call| module.call(*call));
    given.map(|given| (given.answer, given.value)).collect()
}

/// Counts that are 0 but for those at these channels.
fn counts(some: &[(usize, u32)]) -> [u32; CHANNELS] {
    let mut counts = [0; CHANNELS];
    some.iter()
        .for_each(|(channel, count)| counts[*channel] = *count);
    counts
}

#[test]
fn marked_four_and_five_are_joined() {
    let mut module = started([0x30, 0, 0, 1], counts(&[(3, 0xFFFFFF)]));
    assert_eq!(given(&mut module, &[Pulses(3, 1)]), [(0, 0)]);
    assert_eq!(module.held().counts, counts(&[(4, 1)]));
}

#[test]
fn marked_count_five() {
    let mut module = started([0, 0, 0, 1], counts(&[(0, 5)]));
    let calls = [Read(0x10, 32), VetoLine(true), Read(0x10, 32)];
    assert_eq!(
        given(&mut module, &calls),
        [(0, 0xFF000005), (0, 0), (0, 0x7F000005)]
    );
    let calls = [
        VetoLine(false),
        Read(0x52, 16),
        Read(0x10, 32),
        Write(0x54, 16, 0),
    ];
    assert_eq!(given(&mut module, &calls)[2], (0, 0x7F000005));
    assert_eq!(given(&mut module, &[Read(0x10, 32)]), [(0, 0xFF000005)]);
}

#[test]
fn carries_go_through_a_run_and_round_past_15() {
    // 001, 3.1: the 72-bit scale of channels 3, 4 and 5; its own inputs 4 and 5 do nothing.
    let full = counts(&[(3, 0xFFFFFF), (4, 0xFFFFFF), (5, 7), (6, 0xFFFFFF)]);
    let mut module = started([0x30, 0, 0, 1], full);
    let calls = [Pulses(4, 9), Pulses(5, 9), Pulses(3, 1), Pulses(6, 1)];
    assert_eq!(given(&mut module, &calls), [(0, 0); 4]);
    assert_eq!(module.held().counts, counts(&[(5, 8)]));
    let mut module = started([1, 0, 0, 1], counts(&[(15, 0xFFFFFE), (0, 4)]));
    given(&mut module, &[Pulses(15, 3), Pulses(0, 1)]);
    assert_eq!(module.held().counts, counts(&[(15, 1), (0, 5)]));
    let mut module = started([0xFFFF, 0, 0, 1], [0xFFFFFF; CHANNELS]);
    given(&mut module, &[Pulses(0, 5), Pulses(15, 5)]);
    assert_eq!(module.held().counts, [0xFFFFFF; CHANNELS]);
    let mut module = started([0xFFFE, 0, 0, 1], [0xFFFFFF; CHANNELS]);
    given(&mut module, &[Pulses(0, 2)]);
    assert_eq!(module.held().counts, counts(&[(0, 1)]));
}

#[test]
fn the_jumpers_choose_the_watched_bit() {
    // Jumpers 1: JP18 inserted, bit 23 of 0 to 7; JP17 removed, bit 15 of 8 to 15.
    let at = [(7, 0x7FFFFF), (8, 0x7FFF), (6, 0x7FFF), (9, 0x7FFFFF)];
    let mut module = started([0, 0xFFFF, 1, 5], counts(&at));
    given(
        &mut module,
        &[Write(0x08, 16, 0), Pulses(6, 1), Pulses(9, 1)],
    );
    assert!(!module.held().interrupter.requested);
    for channel in [7, 8] {
        given(&mut module, &[Pulses(channel, 1)]);
        assert!(module.held().interrupter.requested, "{}", channel);
        given(&mut module, &[Read(0x0C, 16)]);
        assert!(!module.held().interrupter.requested);
    }
    assert_eq!(module.held().counts[7], 0x800000);
    assert_eq!(module.held().counts[8], 0x8000);
}

#[test]
fn a_request_needs_the_switch_the_level_and_generation() {
    let requested = |interrupts: u32, level: u32, enabled: bool| {
        let switches = [0x0020, interrupts, 3, level];
        let mut module = started(switches, counts(&[(4, 0xFFFFFF), (5, 0x7FFFFF)]));
        let enable = if enabled {
            Read(0x08, 16)
        } else {
            Read(0x0A, 16)
        };
        given(&mut module, &[enable, Pulses(4, 1), Read(0x08, 16)]);
        assert_eq!(module.held().counts, counts(&[(5, 0x800000)]));
        module.held().interrupter.requested
    };
    assert!(requested(0x0020, 1, true));
    assert!(!requested(0xFFDF, 1, true), "channel 5 is not enabled");
    assert!(!requested(0x0020, 0, true), "the level is 0");
    assert!(!requested(0x0020, 1, false), "enabled later");
}

#[test]
fn halves_are_latched_each_in_its_own_latch() {
    let mut module = started([0, 0, 0, 1], counts(&[(0, 0x12FFFF), (1, 0x345678)]));
    let calls = [
        Read(0x12, 16),
        Read(0x10, 16),
        Pulses(0, 1),
        Read(0x14, 16),
        Read(0x14, 32),
        Read(0x50, 16),
        Read(0x12, 16),
        Read(0x16, 16),
        Read(0x10, 32),
        Read(0x12, 16),
    ];
    let expected = [
        0, 0xFF12, 0, 0xFF34, 0xFF345678, 0, 0xFFFF, 0x5678, 0xFF000000, 0xFFFF,
    ];
    assert_eq!(given(&mut module, &calls), expected.map(|value| (0, value)));
    assert_eq!(module.held().latches[..3], [0xFF12FFFF, 0xFF345678, 0]);
}

#[test]
fn registers_of_table_4_1() {
    let mut module = started([0, 0xA5C3, 0, 6], [0; CHANNELS]);
    let calls = [
        (Read(0x06, 16), (0, 6)),
        (Read(0x58, 16), (0, 0xA5C3)),
        (Write(0x04, 16, 0x1234), (0, 0)),
        (Read(0x04, 16), (3, 0)),
        (Write(0x06, 16, 1), (3, 0)),
        (Write(0x58, 16, 1), (3, 0)),
        (Write(0x58, 32, 1), (2, 0)),
        (Read(0x04, 32), (2, 0)),
        (Read(0x0E, 16), (1, 0)),
        (Read(0x5A, 32), (1, 0)),
        (Read(0xFA, 16), (1, 0)),
        (Read(0x4E, 32), (2, 0)),
        (Write(0x4C, 32, 1), (3, 0)),
        (Read(0x4C, 32), (0, 0xFF000000)),
        (Read(0x50, 16), (0, 0)),
        (Pulses(16, 0), (11, 0)),
        (Pulses(15, 0), (0, 0)),
        (Trigger, (4, 0)),
    ];
    for (call, expected) in calls {
        assert_eq!(given(&mut module, &[call]), [expected], "{:?}", call);
    }
    assert_eq!(module.held().interrupter.vector, 0x34);
}

#[test]
fn a_refused_start_and_a_malformed_record_get_12() {
    let (given_start, _) = own_start(&v260([1, 0, 0, 8], [0; CHANNELS]));
    assert_eq!((given_start.answer, given_start.value), (12, 0));
    let mut module = started([1, 0, 0, 8], [0; CHANNELS]);
    assert_eq!(module.held().interrupter.level, 8);
    let calls = [
        Trigger,
        Pulses(31, 1),
        Read(0x00, 16),
        ManClr,
        Test,
        VetoLine(true),
    ];
    assert_eq!(given(&mut module, &calls), [(12, 0); 6]);
    let huge = started([1, 0, 0, u32::MAX], [0; CHANNELS]);
    assert_eq!(huge.held().interrupter.level, 8);
    let mut module = started([0, 0, 0, 1], counts(&[(9, 0x1000000)]));
    assert_eq!(given(&mut module, &calls), [(12, 0); 6]);
    assert!(!module.held().line);
}

#[test]
fn a_record_of_24_bit_counts_is_none() {
    let mut module = started([0, 0, 0, 7], [0xFFFFFF; CHANNELS]);
    assert_eq!(given(&mut module, &[Test]), [(0, 0)]);
    assert_eq!(module.held().counts, [0; CHANNELS]);
}
