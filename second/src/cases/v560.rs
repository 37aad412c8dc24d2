//! Tests of the V560, all reckoned by hand.

use crate::listings::own_module::own_start;
use crate::listings::trace_head::v560;
use crate::model::module::{Call, Call::*, Module};
use crate::model::scaler::{Scaler, CHANNELS};

/// A V560 with these sections joined, its counts 0 but for those at these channels.
fn started(joined: u32, some: &[(usize, u32)]) -> Box<dyn Scaler> {
    let (_, module) = own_start(&v560(joined, counts(some)));
    module.into_scaler().expect("a V560")
}

/// The answer and the value of each call, one behind the other.
fn given(module: &mut Box<dyn Scaler>, calls: &[Call]) -> Vec<(u32, u32)> {
    let given = calls.iter().map(|call| module.call(*call));
    given.map(|given| (given.answer, given.value)).collect()
}

/// Counts that are 0 but for those at these channels.
fn counts(some: &[(usize, u32)]) -> [u32; CHANNELS] {
    let mut counts = [0; CHANNELS];
    some.iter()
        .for_each(|(channel, count)| counts[*channel] = *count);
    counts
}

/// A level, all sections and generation.
const ARMED: [Call; 3] = [Write(0x06, 16, 4), Write(0x0E, 16, 0xFF), Read(0x08, 16)];

#[test]
fn marked_joined_low_part_full() {
    let mut module = started(1, &[(1, 0xFFFFFFFF)]);
    assert_eq!(given(&mut module, &[Pulses(1, 1)]), [(0, 0)]);
    assert_eq!(module.held().counts, counts(&[(0, 1)]));
    // Input 0 then does nothing; the low part goes on.
    assert_eq!(
        given(&mut module, &[Pulses(0, 3), Pulses(1, 2)]),
        [(0, 0); 2]
    );
    assert_eq!(module.held().counts, counts(&[(0, 1), (1, 2)]));
}

#[test]
fn sections_by_themselves_do_not_carry() {
    let mut module = started(0xFE, &[(1, 0xFFFFFFFF), (15, 0xFFFFFFFF)]);
    given(&mut module, &[Pulses(1, 1), Pulses(0, 1), Pulses(15, 2)]);
    assert_eq!(module.held().counts, counts(&[(0, 1), (14, 1), (15, 1)]));
}

#[test]
fn requests_of_bit_31() {
    // Section 1 joined: only the even channel's bit 31 is watched.
    let at = [(0, 0x7FFFFFFF), (1, 0x7FFFFFFF), (3, 0x7FFFFFFF)];
    let mut module = started(2, &at);
    given(&mut module, &ARMED);
    given(&mut module, &[Pulses(3, 1)]);
    assert!(!module.held().interrupter.requested);
    for channel in [0, 1] {
        given(&mut module, &[Pulses(channel, 1)]);
        assert!(module.held().interrupter.requested, "{}", channel);
        given(&mut module, &[Write(0x0C, 16, 5)]);
    }
    let mut module = started(2, &[(2, 0x7FFFFFFF), (3, 0xFFFFFFFF)]);
    given(&mut module, &ARMED);
    given(&mut module, &[Pulses(3, 1)]);
    assert!(module.held().interrupter.requested);
    assert_eq!(module.held().counts, counts(&[(2, 0x80000000)]));
}

#[test]
fn a_request_needs_the_section_the_level_and_generation() {
    let requested = |calls: &[Call]| {
        let mut module = started(0, &[(4, 0x7FFFFFFF)]);
        given(&mut module, calls);
        given(&mut module, &[Pulses(4, 1)]);
        given(&mut module, &ARMED);
        module.held().interrupter.requested
    };
    let [level, sections, enable] = ARMED;
    assert!(requested(&ARMED));
    assert!(requested(&[level, Write(0x0E, 16, 4), enable]));
    assert!(!requested(&[level, Write(0x0E, 16, 0xFFFB), enable]));
    assert!(!requested(&[Write(0x06, 16, 0xFFF8), sections, enable]));
    assert!(!requested(&[level, sections]));
    assert!(!requested(&[level, sections, enable, Read(0x0A, 16)]));
}

#[test]
fn what_removes_a_request_and_disables() {
    let after = |call: Call| {
        let mut module = started(0, &[(4, 0x7FFFFFFF)]);
        given(&mut module, &ARMED);
        given(
            &mut module,
            &[Read(0x52, 16), VetoLine(true), Read(0x54, 16)],
        );
        given(
            &mut module,
            &[VetoLine(false), Pulses(4, 1), VetoLine(true)],
        );
        given(&mut module, &[Read(0x52, 16), call]);
        let held = module.held();
        let interrupter = held.interrupter;
        assert!(held.line);
        let counted = held.counts[4] != 0;
        (
            interrupter.enabled,
            interrupter.requested,
            held.vme,
            counted,
        )
    };
    assert_eq!(after(Read(0x0A, 16)), (false, true, true, true));
    assert_eq!(after(Read(0x0C, 16)), (true, false, true, true));
    assert_eq!(after(Write(0x50, 16, 1)), (false, false, true, false));
    assert_eq!(after(ManClr), (false, false, false, false));
    assert_eq!(after(ClearLine), (true, true, true, false));
    assert_eq!(after(Write(0x06, 16, 0)), (true, true, true, true));
}

#[test]
fn the_veto_latch() {
    let mut module = started(0, &[(0, 0x12345678)]);
    let level = Read(0x06, 16);
    let calls = [
        (level, 0xFFF8),
        (VetoLine(true), 0),
        (level, 0xFFF8),
        (Read(0x10, 32), 0x12345678),
        (level, 0xFF78),
        (VetoLine(false), 0),
        (Read(0x12, 16), 0),
        (level, 0xFF78),
        (Read(0x10, 16), 0x1234),
        (level, 0xFFF8),
        (Read(0x52, 16), 0),
        (Read(0x12, 16), 0x5678),
        (level, 0xFFF8),
        (Read(0x14, 16), 0),
        (Read(0x50, 16), 0),
        (Write(0x06, 16, 0xFFFD), 0),
        (level, 0xFF7D),
        (Read(0x12, 16), 0x5678),
    ];
    for (call, value) in calls {
        assert_eq!(given(&mut module, &[call]), [(0, value)], "{:?}", call);
    }
}

#[test]
fn registers_of_table_4_1() {
    let mut module = started(0xA5, &[(15, 9)]);
    let calls = [
        (Read(0x58, 16), (0, 0xFFA5)),
        (Read(0x04, 16), (0, 0xFF00)),
        (Write(0x04, 16, 0x1234), (0, 0)),
        (Read(0x04, 16), (0, 0xFF34)),
        (Write(0x0E, 16, 0x12C3), (0, 0)),
        (Read(0x0E, 16), (0, 0xFFC3)),
        (Write(0x0E, 32, 0), (2, 0)),
        (Write(0x58, 32, 0), (2, 0)),
        (Write(0x58, 16, 0), (3, 0)),
        (Write(0x10, 32, 0), (3, 0)),
        (Write(0x12, 16, 0), (3, 0)),
        (Read(0x12, 32), (2, 0)),
        (Read(0x00, 16), (1, 0)),
        (Read(0x59, 16), (1, 0)),
        (Read(0x104, 16), (1, 0)),
        (Read(0x4C, 32), (0, 9)),
        (Read(0x56, 16), (4, 0)),
        (Test, (4, 0)),
        (VetoLine(true), (0, 0)),
        (Test, (4, 0)),
        (Trigger, (4, 0)),
        (Pulses(16, 1), (11, 0)),
    ];
    for (call, expected) in calls {
        assert_eq!(given(&mut module, &[call]), [expected], "{:?}", call);
    }
    assert_eq!(module.held().counts, counts(&[(15, 9)]));
}

#[test]
fn test_counts_in_every_channel_unless_inhibited() {
    let mut module = started(0, &[(3, 0xFFFFFFFF), (9, 0x7FFFFFFF)]);
    given(&mut module, &ARMED);
    let calls = [VetoLine(true), Test, Read(0x56, 16), VetoLine(false)];
    assert_eq!(given(&mut module, &calls), [(0, 0); 4]);
    assert_eq!(module.held().counts[3], 0xFFFFFFFF);
    given(&mut module, &[Test]);
    assert!(module.held().interrupter.requested);
    let mut expected = [1; CHANNELS];
    expected[3] = 0;
    expected[9] = 0x80000000;
    assert_eq!(module.held().counts, expected);
    given(&mut module, &[Write(0x56, 16, 0), Read(0x56, 16)]);
    assert_eq!(module.held().counts[3], 2);
}
