//! Logs that are the same in every comparison, for a V260 as well as for a V560.

use crate::inputs::trace::calls::BAD_OFFSETS;
use crate::model::module::Call::{self, *};

/// A level, all sections and generation enabled, high bits written too; a V260 refuses the first two.
pub const ARMED: [Call; 4] = [
    Write(0x06, 16, 0xFFF5),
    Write(0x0E, 16, 0x01FF),
    Write(0x04, 16, 0xABCD),
    Read(0x08, 16),
];

/// Request removal.
pub const REMOVAL: Call = Read(0x0C, 16);

/// Every script and its name.
pub fn scripts() -> Vec<(&'static str, Vec<Call>)> {
    vec![
        ("no entry", Vec::new()),
        ("every channel", every_channel()),
        ("requests by pulses", requests_by_pulses()),
        ("requests withheld", requests_withheld()),
        ("a level of 0", level_zero()),
        ("some sections", some_sections()),
        ("a standing request", standing_request()),
        ("TEST", tests()),
        ("vetoes", vetoes()),
        ("pulses under vetoes", pulses_under_vetoes()),
        ("the CLEAR line", clear_by(ClearLine)),
        ("clear by read", clear_by(Read(0x50, 16))),
        ("clear by write", clear_by(Write(0x50, 16, 0))),
        ("MAN CLR", clear_by(ManClr)),
        ("latches", latches()),
        ("reads of 16 bits", every_offset(&|offset| Read(offset, 16))),
        ("reads of 32 bits", every_offset(&|offset| Read(offset, 32))),
        (
            "writes of 16 bits",
            every_offset(&|offset| Write(offset, 16, 0xFF5A)),
        ),
        (
            "writes of 32 bits",
            every_offset(&|offset| Write(offset, 32, 0xFFFF_FF5A)),
        ),
    ]
}

/// Pulses of every number on every channel, those that there are not too.
fn every_channel() -> Vec<Call> {
    let mut calls = ARMED.to_vec();
    for channel in 0..32 {
        calls.extend([0, 1, 2, 300].map(|pulses| Pulses(channel, pulses)));
        calls.push(REMOVAL);
    }
    calls.extend([Pulses(16, u32::MAX), Pulses(31, u32::MAX), Trigger]);
    calls
}

/// One pulse on each channel, the request removed behind each.
fn requests_by_pulses() -> Vec<Call> {
    let mut calls = ARMED.to_vec();
    for channel in 0..16 {
        calls.extend([Pulses(channel, 1), REMOVAL, Pulses(channel, 1), REMOVAL]);
    }
    calls
}

/// Pulses while generation is off; enabling it later raises nothing.
fn requests_withheld() -> Vec<Call> {
    let mut calls = ARMED[..3].to_vec();
    calls.extend((0..16).map(|channel| Pulses(channel, 1)));
    calls.extend([Read(0x08, 16), Read(0x0A, 16), Write(0x08, 16, 0)]);
    calls.extend((0..16).map(|channel| Pulses(channel, 1)));
    calls
}

/// Pulses at level 0; a level set later raises nothing.
fn level_zero() -> Vec<Call> {
    let mut calls = ARMED.to_vec();
    calls.push(Write(0x06, 16, 0xFFF8));
    calls.extend((0..16).map(|channel| Pulses(channel, 1)));
    calls.extend([Read(0x06, 16), Write(0x06, 16, 3), Read(0x06, 16)]);
    calls
}

/// Pulses with some sections enabled; enabling the others later raises nothing.
fn some_sections() -> Vec<Call> {
    let mut calls = ARMED.to_vec();
    calls.push(Write(0x0E, 16, 0xFFA6));
    for channel in 0..16 {
        calls.extend([Pulses(channel, 1), REMOVAL]);
    }
    calls.extend([Read(0x0E, 16), Write(0x0E, 16, 0xFF), Read(0x0E, 16)]);
    calls
}

/// What leaves a request standing, and what removes it.
fn standing_request() -> Vec<Call> {
    let mut calls = ARMED.to_vec();
    calls.extend((0..16).map(|channel| Pulses(channel, 1)));
    calls.extend([
        Read(0x0A, 16),
        Write(0x06, 16, 0),
        Write(0x0E, 16, 0),
        ClearLine,
        VetoLine(true),
        VetoLine(false),
        Read(0x52, 16),
        Read(0x54, 16),
        Read(0x08, 16),
        Read(0x04, 16),
        Write(0x0C, 16, 0xFFFF),
        Read(0x06, 16),
        Read(0x58, 16),
    ]);
    calls
}

/// TEST by the line and by both accesses, free and under each veto.
fn tests() -> Vec<Call> {
    let by_all = [Test, REMOVAL, Read(0x56, 16), REMOVAL, Write(0x56, 16, 7)];
    let mut calls = ARMED.to_vec();
    calls.extend(by_all);
    calls.push(Read(0x10, 32));
    for veto in [VetoLine(true), Read(0x52, 16), VetoLine(false)] {
        calls.push(veto);
        calls.extend(by_all);
    }
    calls.extend([Write(0x54, 16, 0), Test, Read(0x56, 32), Trigger]);
    calls
}

/// Counters and the level register read under each veto.
fn vetoes() -> Vec<Call> {
    let reads = [
        Read(0x06, 16),
        Read(0x10, 32),
        Read(0x06, 16),
        Read(0x4C, 16),
        Read(0x4E, 16),
        Read(0x06, 16),
    ];
    let mut calls = reads.to_vec();
    for veto in [
        VetoLine(true),
        Write(0x52, 16, 0),
        VetoLine(false),
        Read(0x54, 16),
        Write(0x52, 16, 1),
        Read(0x52, 16),
        VetoLine(true),
        Write(0x54, 16, 0xFFFF),
        VetoLine(false),
    ] {
        calls.push(veto);
        calls.extend(reads);
    }
    // Latched free and read inhibited, and the other way; offset + 2 latches no veto.
    calls.extend([
        Read(0x10, 16),
        VetoLine(true),
        Read(0x12, 16),
        Read(0x06, 16),
    ]);
    calls.extend([
        Read(0x14, 16),
        VetoLine(false),
        Read(0x16, 16),
        Read(0x06, 16),
    ]);
    calls
}

/// Pulses on every channel under each veto.
fn pulses_under_vetoes() -> Vec<Call> {
    let mut calls = ARMED.to_vec();
    for veto in [
        VetoLine(true),
        Read(0x52, 16),
        VetoLine(false),
        Read(0x54, 16),
    ] {
        calls.push(veto);
        calls.extend((0..16).map(|channel| Pulses(channel, 3)));
    }
    calls
}

/// A clear of some kind behind a request, and again under both vetoes.
fn clear_by(clear: Call) -> Vec<Call> {
    let mut calls = ARMED.to_vec();
    calls.extend([Read(0x10, 16), Read(0x14, 16), Read(0x4C, 16)]);
    calls.extend((0..16).map(|channel| Pulses(channel, 1)));
    calls.extend([clear, Read(0x10, 32), Read(0x12, 16), Read(0x06, 16)]);
    calls.extend([Pulses(5, 7), Read(0x08, 16), VetoLine(true), Read(0x52, 16)]);
    calls.extend([Read(0x24, 16), VetoLine(true), clear, Read(0x06, 16)]);
    calls.extend([Pulses(5, 7), VetoLine(false), Pulses(5, 7), Read(0x26, 16)]);
    calls
}

/// Halves of counters with pulses, other reads and clears in between.
fn latches() -> Vec<Call> {
    let mut calls = Vec::new();
    for channel in 0..16 {
        let offset = 0x10 + 4 * channel;
        calls.extend([
            Read(offset + 2, 16),
            Read(offset, 16),
            Pulses(channel, 2),
            Read(offset, 32),
            Read(0x10 + (4 * channel + 4) % 64, 16),
            Read(offset + 2, 16),
            Read(offset + 2, 32),
            Write(offset + 2, 16, 1),
        ]);
    }
    calls.extend([ClearLine, Read(0x12, 16), Read(0x16, 16)]);
    calls.extend([Read(0x50, 16), Read(0x12, 16), Read(0x4E, 16)]);
    calls.extend([ManClr, Read(0x12, 16), Read(0x4E, 16)]);
    calls.extend([Read(0x10, 16), Read(0x12, 16)]);
    calls
}

/// An access to every offset of the page and a little beyond, and far from it.
fn every_offset(access: &dyn Fn(u32) -> Call) -> Vec<Call> {
    let mut calls = ARMED.to_vec();
    calls.extend((0..16).map(|channel| Pulses(channel, 1)));
    let near = 0..=0x112;
    let far = [0x152, 0x158, 0x204, 0x1008, 0x1050, 0x8006, 0xFF10, 0xFF56];
    let offsets = near.chain(BAD_OFFSETS).chain(far);
    calls.extend(offsets.map(access));
    calls
}
