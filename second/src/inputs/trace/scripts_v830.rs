//! Logs that are the same in every comparison, for a V830.

use crate::model::module::Call::{self, *};

/// The registers, by the names of 3.1.
pub const ENABLE: u32 = 0x1100;
pub const CONTROL: u32 = 0x1108;
pub const BIT_SET: u32 = 0x110A;
pub const BIT_CLEAR: u32 = 0x110C;
pub const RESET: Call = Write(0x1120, 16, 0);
pub const CLEAR: Call = Write(0x1122, 16, 0);
pub const SOFTWARE_TRIGGER: Call = Write(0x1124, 16, 0);
pub const TRIGGERS: Call = Read(0x1128, 32);
pub const NUMBER: Call = Read(0x1134, 16);
pub const MEMORY: Call = Read(0, 32);

/// Offsets at which no register stands, though the manual or a slip may put one there.
pub const BAD_OFFSETS_830: [u32; 50] = [
    0x0001, 0x0002, 0x0003, 0x0005, 0x0006, 0x0FFA, 0x0FFD, 0x0FFE, 0x0FFF, 0x1001, 0x1002, 0x1062,
    0x107E, 0x1080, 0x1084, 0x1090, 0x1094, 0x10A0, 0x10A4, 0x10FC, 0x1101, 0x1102, 0x1104, 0x1106,
    0x1109, 0x110B, 0x110D, 0x110E, 0x1110, 0x1112, 0x1114, 0x1116, 0x1118, 0x111A, 0x111C, 0x111E,
    0x1121, 0x1126, 0x112A, 0x112C, 0x1130, 0x1132, 0x1136, 0x1200, 0x1204, 0x2000, 0x4026, 0x9108,
    0xF124, 0xFFFF,
];

/// Channel Enable and Control of these contents.
pub fn set_up(enable: u32, control: u32) -> Vec<Call> {
    vec![Write(ENABLE, 32, enable), Write(CONTROL, 16, control)]
}

/// So many memory reads, going through the window.
fn reads(words: u32) -> impl Iterator<Item = Call> {
    (0..words).map(|word| Read(4 * (37 * word % 1_024), 32))
}

/// Every script and its name.
pub fn scripts_830() -> Vec<(&'static str, Vec<Call>)> {
    vec![
        ("no entry", Vec::new()),
        ("counting", counting()),
        ("events of one word", round(1, 0x81, 8)),
        ("a header alone", round(0, 0xA1, 8)),
        ("short events of three words", round(0x8000_0001, 0xA5, 9)),
        ("long events of four words", round(0x0001_0205, 0x01, 9)),
        ("long events with header", round(0x0F, 0x21, 7)),
        ("short events", round(0x4000_0003, 0x05, 7)),
        ("short events with header", round(0x20, 0x25, 7)),
        ("short events, AUTO RESET", round(0x30, 0x85, 7)),
        ("long events with header, AUTO RESET", round(0x11, 0xF9, 7)),
        ("every channel with header", round(u32::MAX, 0xB9, 4)),
        ("triggers refused", refused_triggers()),
        ("Control", controls()),
        ("emptying with bit 6", emptying(0xE1)),
        ("emptying without bit 6", emptying(0xA1)),
        ("Channel Enable", enables()),
        ("the whole window", window()),
        ("reads of 16 bits", every_offset(&|offset| Read(offset, 16))),
        ("reads of 32 bits", every_offset(&|offset| Read(offset, 32))),
        (
            "writes of 16 bits",
            every_offset(&|offset| Write(offset, 16, 0xFFA1)),
        ),
        (
            "writes of 32 bits",
            every_offset(&|offset| Write(offset, 32, 0xFFFF_FF21)),
        ),
        ("every call", every_call()),
    ]
}

/// Pulses and TEST on every channel, free, under VETO, and with some channels disabled.
fn counting() -> Vec<Call> {
    let mut calls = vec![Test];
    for veto in [false, true, false] {
        calls.push(VetoLine(veto));
        for channel in 0..32 {
            calls.extend([0, 1, 2].map(|pulses| Pulses(channel, pulses)));
            calls.push(Read(0x1000 + 4 * channel, 32));
        }
        calls.extend([Test, Test, Trigger, SOFTWARE_TRIGGER]);
        calls.push(Write(ENABLE, 32, 0x0F0F_5A5A));
    }
    calls.extend([ClearLine, Pulses(31, 300), CLEAR, Pulses(0, 300)]);
    calls
}

/// Triggers by turns, each behind other pulses, and reads that lag behind them, until all is read.
fn round(enable: u32, control: u32, turns: u32) -> Vec<Call> {
    let length = enable.count_ones() + u32::from(control & 0x20 != 0);
    let mut calls = set_up(enable, control);
    for turn in 0..turns {
        let channels = (0..32).filter(|channel| enable >> channel & 1 == 1);
        calls.extend(channels.map(|channel| Pulses(channel, 3 * turn + channel + 1)));
        calls.extend([Pulses(9, turn), Test, VetoLine(turn % 3 == 2), Pulses(0, 5)]);
        calls.push([Trigger, SOFTWARE_TRIGGER][turn as usize % 2]);
        calls.extend([Trigger, NUMBER]);
        calls.extend(reads(length.min(6) + turn % 2));
        calls.extend([NUMBER, TRIGGERS, Read(0x1000 + 4 * (turn % 32), 32)]);
    }
    calls.extend(reads(4 * length.min(9)));
    calls.extend([Pulses(0, 4), Trigger, SOFTWARE_TRIGGER, NUMBER]);
    calls
}

/// Triggers in modes 0 and 2, of no words, of more words than there are, and behind a full memory.
fn refused_triggers() -> Vec<Call> {
    let both = [Pulses(3, 7), Trigger, SOFTWARE_TRIGGER, TRIGGERS];
    let mut calls = both.to_vec();
    for (enable, control) in [
        (0, 0x00),
        (0, 0x02),
        (0, 0x01),
        (0, 0x81),
        (0, 0xA0),
        (8, 0x80),
        (8, 0x82),
        (8, 0x81),
        (u32::MAX, 0xA2),
        (u32::MAX, 0xA0),
        (u32::MAX, 0xA1),
        (0xFFFF, 0x85),
    ] {
        calls.extend(set_up(enable, control));
        (0..4).for_each(|_| calls.extend(both));
        calls.push(Write(CONTROL, 16, 0));
    }
    calls
}

/// Every kind of Control write: results, refusals, and what they clear or leave.
fn controls() -> Vec<Call> {
    let fill = [Pulses(2, 5), Pulses(20, 6), Trigger, MEMORY, Pulses(2, 1)];
    let look = [Read(CONTROL, 16), NUMBER, TRIGGERS, Read(0x1008, 32)];
    let mut calls = set_up(0x0000_0006, 0xFF21);
    for (offset, data) in [
        (CONTROL, 0x0021),
        (CONTROL, 0x0003),
        (CONTROL, 0xFF21),
        (CONTROL, 0x00FF),
        (BIT_SET, 0x0002),
        (BIT_SET, 0x0003),
        (BIT_SET, 0x0000),
        (BIT_SET, 0x0080),
        (BIT_CLEAR, 0x0020),
        (BIT_CLEAR, 0x0000),
        (BIT_SET, 0xFF5C),
        (BIT_CLEAR, 0xFF04),
        (BIT_SET, 0x01),
        (CONTROL, 0x00A1),
        (BIT_CLEAR, 0x0083),
        (BIT_SET, 0x0002),
        (BIT_SET, 0x0001),
        (BIT_CLEAR, 0x0003),
        (BIT_SET, 0x0001),
        (BIT_CLEAR, 0x0002),
        (CONTROL, 0xFF02),
        (CONTROL, 0x0081),
    ] {
        calls.extend(fill);
        calls.push(Write(offset, 16, data));
        calls.extend(look);
    }
    calls
}

/// CLEAR by line and by register, reset and Control, each behind events and some reads.
fn emptying(control: u32) -> Vec<Call> {
    let mut calls = Vec::new();
    for empties in [
        ClearLine,
        CLEAR,
        RESET,
        Write(CONTROL, 16, control),
        Write(BIT_SET, 16, 0),
        Write(BIT_CLEAR, 16, 0),
        Write(BIT_SET, 16, 2),
        Write(CONTROL, 16, 3),
        Write(0x1120, 16, 0xFFFF),
    ] {
        for veto in [false, true] {
            calls.extend(set_up(0x0000_0101, control));
            calls.extend([Pulses(0, 3), Pulses(8, 4), Trigger, Pulses(8, 1), Trigger]);
            calls.extend([Test, MEMORY, MEMORY, Test, VetoLine(veto), empties]);
            calls.extend([NUMBER, TRIGGERS, Read(0x1020, 32), Read(ENABLE, 32)]);
            calls.extend([MEMORY, Pulses(8, 2), Test, Trigger, MEMORY, MEMORY]);
            calls.extend([SOFTWARE_TRIGGER, VetoLine(false)]);
        }
    }
    calls
}

/// Channel Enable read and written, with words stored and without.
fn enables() -> Vec<Call> {
    let mut calls = vec![Read(ENABLE, 32), Trigger];
    calls.extend(set_up(0x0000_0003, 0x81));
    for enable in [0x0000_0003, 0x8000_0001, 0x0001_0000, 0, 5, u32::MAX, 1] {
        calls.extend([Pulses(0, 2), Pulses(1, 3), Trigger]);
        calls.extend([Write(ENABLE, 32, enable), NUMBER, MEMORY, NUMBER]);
        calls.push(Write(ENABLE, 32, enable));
        calls.extend(reads(33));
        calls.extend([Write(ENABLE, 32, enable), Read(ENABLE, 32), Test]);
    }
    calls
}

/// Events of every channel, read all over the window.
fn window() -> Vec<Call> {
    let mut calls = set_up(u32::MAX, 0x21);
    calls.extend([Trigger, Test, Trigger, Test, Trigger]);
    calls.extend((0..64).map(|part| Read(64 * part + 4 * (part % 16), 32)));
    calls.extend(reads(36));
    calls
}

/// An access to every offset outside the window, to many inside it, and far away.
fn every_offset(access: &dyn Fn(u32) -> Call) -> Vec<Call> {
    let mut calls = set_up(0x0000_0013, 0x21);
    calls.extend([Pulses(0, 9), Pulses(1, 8), Pulses(4, 7), Trigger, Trigger]);
    let window = (0..=8).chain((16..0xFF0).step_by(52)).chain(0xFF6..0x1000);
    let far = (0x2000..=0x2008).chain([0x3108, 0x5124, 0x8000, 0x9100, 0xFFFC]);
    let offsets = window.chain(0x1000..=0x1140).chain(BAD_OFFSETS_830);
    calls.extend(offsets.chain(far).map(access));
    calls
}

/// One of each call, twice.
pub fn every_call() -> Vec<Call> {
    let calls = [
        ManClr,
        Trigger,
        Pulses(0, 1),
        Pulses(31, 2),
        VetoLine(true),
        Test,
        ClearLine,
        SOFTWARE_TRIGGER,
        MEMORY,
        Read(0x1000, 32),
        Read(0x1000, 16),
        Read(0x1002, 16),
        Read(CONTROL, 16),
        Read(0x1120, 16),
        Write(ENABLE, 32, 3),
        Write(CONTROL, 16, 0x03),
        Write(CONTROL, 16, 0xA1),
        Write(BIT_SET, 16, 0x02),
        Write(BIT_CLEAR, 16, 0x20),
        NUMBER,
        TRIGGERS,
        CLEAR,
        RESET,
    ];
    calls.repeat(2)
}
