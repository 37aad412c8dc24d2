//! Makes the calls of random traces, with an eye on what the module holds.

use crate::inputs::numbers::{any_half_word, any_value};
use crate::inputs::rng::Rng;
use crate::model::module::Call;
use crate::model::registers::Register;
use crate::model::scaler::{Scaler, CHANNELS};

/// The most pulses that are given to a channel that may count them.
pub const MOST_PULSES: u32 = 300;

/// A way of making the next calls.
type Maker = fn(&mut Rng, &dyn Scaler) -> Vec<Call>;

/// What a run is mostly about: its makers, each with its share of the turns.
pub type Profile = &'static [(usize, Maker)];

/// Every profile.
pub const PROFILES: [(usize, Profile); 6] = [
    (3, &COUNTING),
    (5, &REQUESTING),
    (2, &LATCHING),
    (1, &CLEARING),
    (2, &ACCESSING),
    (2, &EVERYTHING),
];

const COUNTING: [(usize, Maker); 7] = [
    (12, telling_pulses),
    (8, any_pulses),
    (1, pulses_beside),
    (3, any_test),
    (3, any_veto),
    (3, counter_read),
    (2, arming),
];

const REQUESTING: [(usize, Maker); 7] = [
    (12, telling_pulses),
    (2, any_pulses),
    (3, any_test),
    (1, any_veto),
    (3, arming),
    (6, interrupter_access),
    (1, any_access),
];

const LATCHING: [(usize, Maker); 5] = [
    (4, telling_pulses),
    (6, counter_read),
    (6, latching),
    (2, any_veto),
    (1, interrupter_access),
];

const CLEARING: [(usize, Maker); 7] = [
    (6, telling_pulses),
    (3, any_pulses),
    (3, any_clear),
    (2, any_veto),
    (3, arming),
    (2, latching),
    (1, trigger),
];

const ACCESSING: [(usize, Maker); 4] = [
    (4, any_access),
    (4, bad_offset),
    (2, telling_pulses),
    (1, pulses_beside),
];

const EVERYTHING: [(usize, Maker); 12] = [
    (8, telling_pulses),
    (4, any_pulses),
    (2, pulses_beside),
    (3, any_test),
    (3, any_veto),
    (1, any_clear),
    (3, arming),
    (3, interrupter_access),
    (3, counter_read),
    (2, latching),
    (5, any_access),
    (2, trigger),
];

/// The calls up to and with the next one or few that a profile makes.
pub fn next_calls(rng: &mut Rng, profile: Profile, module: &dyn Scaler) -> Vec<Call> {
    rng.pick_by_share(profile)(rng, module)
}

/// How many pulses: none, one, few or some hundreds.
pub fn how_many(rng: &mut Rng) -> u32 {
    match rng.below(8) {
        0 => 0,
        1 | 2 => 1,
        3 | 4 => rng.between(2, 5) as u32,
        5 | 6 => rng.below(40) as u32,
        _ => rng.between(0, MOST_PULSES as usize) as u32,
    }
}

/// A channel that there is.
fn any_channel(rng: &mut Rng) -> u32 {
    rng.below(CHANNELS) as u32
}

/// Pulses on any channel.
fn any_pulses(rng: &mut Rng, _: &dyn Scaler) -> Vec<Call> {
    vec![Call::Pulses(any_channel(rng), how_many(rng))]
}

/// Pulses on a channel that there is not, at times very many.
fn pulses_beside(rng: &mut Rng, _: &dyn Scaler) -> Vec<Call> {
    let how_many = if rng.one_in(3) {
        any_value(rng)
    } else {
        how_many(rng)
    };
    vec![Call::Pulses(rng.between(CHANNELS, 31) as u32, how_many)]
}

/// The pulses until a channel's count next wraps, or a bit turns that may be watched.
fn pulses_until(rng: &mut Rng, module: &dyn Scaler, channel: usize) -> u32 {
    let count = u64::from(module.held().counts[channel]);
    let all_ones = u64::from(module.all_ones());
    let bit = rng.pick(&[15, module.watched_bit(channel).unwrap_or(31)]);
    let turned = (1u64 << bit) - count % (1 << bit);
    let wrapped = (all_ones + 1).saturating_sub(count);
    turned.min(wrapped).max(1) as u32
}

/// What lifts every veto.
fn lifting(rng: &mut Rng, module: &dyn Scaler) -> Vec<Call> {
    let mut calls = Vec::new();
    if module.held().line {
        calls.push(Call::VetoLine(false));
    }
    if module.held().vme {
        calls.push(command(rng, 0x54));
    }
    calls
}

/// Pulses that make something happen, if some channel is near it.
fn telling_pulses(rng: &mut Rng, module: &dyn Scaler) -> Vec<Call> {
    if module.held().inhibited() && rng.one_in(2) {
        return lifting(rng, module);
    }
    if module.held().interrupter.requested && rng.one_in(3) {
        return vec![command(rng, 0x0C)];
    }
    for _ in 0..12 {
        let channel = rng.below(CHANNELS);
        if module.is_joined(channel) && !rng.one_in(8) {
            continue;
        }
        let until = pulses_until(rng, module, channel);
        if until <= MOST_PULSES - 4 {
            let pulses = match rng.below(6) {
                0 => until - 1,
                1 | 2 => until + rng.below(4) as u32,
                _ => until,
            };
            return vec![Call::Pulses(channel as u32, pulses)];
        }
    }
    any_pulses(rng, module)
}

/// An access to a command address, by read or by write.
fn command(rng: &mut Rng, offset: u32) -> Call {
    match rng.below(2) {
        0 => Call::Read(offset, 16),
        _ => Call::Write(offset, 16, any_half_word(rng)),
    }
}

/// TEST by the line or by an access.
fn any_test(rng: &mut Rng, _: &dyn Scaler) -> Vec<Call> {
    let by_line = rng.one_in(2);
    vec![if by_line {
        Call::Test
    } else {
        command(rng, 0x56)
    }]
}

/// A veto by the line or by an access; one that is on mostly goes off.
fn any_veto(rng: &mut Rng, module: &dyn Scaler) -> Vec<Call> {
    let held = module.held();
    let on = |rng: &mut Rng, is_on: bool| match is_on {
        true => rng.one_in(6),
        false => rng.one_in(2),
    };
    if rng.one_in(2) {
        return vec![Call::VetoLine(on(rng, held.line))];
    }
    let offset = if on(rng, held.vme) { 0x52 } else { 0x54 };
    vec![command(rng, offset)]
}

/// CLEAR by the line, by an access or by MAN CLR.
fn any_clear(rng: &mut Rng, _: &dyn Scaler) -> Vec<Call> {
    vec![match rng.below(3) {
        0 => Call::ClearLine,
        1 => command(rng, 0x50),
        _ => Call::ManClr,
    }]
}

/// A write to the level or the request register, high bits and all.
fn setting(rng: &mut Rng, offset: u32, low: u32) -> Call {
    let high = if rng.one_in(2) {
        rng.word() as u32 & 0xFFFF
    } else {
        0
    };
    let field = if offset == 0x06 { 7 } else { 0xFF };
    Call::Write(offset, 16, high & !field | low)
}

/// What makes requests possible: a level, enabled sections, generation.
pub fn arming(rng: &mut Rng, module: &dyn Scaler) -> Vec<Call> {
    let mut calls = vec![command(rng, 0x08)];
    if module.table()[0]
        .iter()
        .any(|row| row.register == Register::Request)
    {
        let sections = match rng.below(3) {
            0 => rng.word() as u32 & 0xFF,
            _ => 0xFF,
        };
        calls.push(setting(rng, 0x0E, sections));
        let level = rng.between(1, 7) as u32;
        calls.push(setting(rng, 0x06, level));
    }
    let turns = rng.below(calls.len());
    calls.rotate_left(turns);
    calls
}

/// Something about the interrupter.
fn interrupter_access(rng: &mut Rng, module: &dyn Scaler) -> Vec<Call> {
    let standing = module.held().interrupter.requested;
    vec![match rng.below(12) {
        _ if standing && rng.one_in(2) => command(rng, 0x0C),
        0..=3 => command(rng, 0x0C),
        4 => command(rng, 0x08),
        5 => command(rng, 0x0A),
        6 => {
            let level = rng.below(8) as u32;
            setting(rng, 0x06, level)
        }
        7 => setting(rng, 0x06, 0),
        8 => {
            let sections = rng.word() as u32 & 0xFF;
            setting(rng, 0x0E, sections)
        }
        9 => Call::Write(0x04, 16, any_half_word(rng)),
        10 => Call::Read(rng.pick(&[0x04, 0x06, 0x0E, 0x58]), 16),
        _ => command(rng, 0x0E),
    }]
}

/// A read of a counter: the whole word, the upper half or the lower half.
fn counter_read(rng: &mut Rng, _: &dyn Scaler) -> Vec<Call> {
    let offset = 0x10 + 4 * any_channel(rng);
    vec![match rng.below(3) {
        0 => Call::Read(offset, 32),
        1 => Call::Read(offset, 16),
        _ => Call::Read(offset + 2, 16),
    }]
}

/// The upper half of a counter, then what might disturb its latch, then its lower half.
fn latching(rng: &mut Rng, module: &dyn Scaler) -> Vec<Call> {
    let channel = any_channel(rng);
    let offset = 0x10 + 4 * channel;
    let mut calls = vec![Call::Read(offset, 16)];
    for _ in 0..rng.between(1, 3) {
        match rng.below(8) {
            0..=2 => calls.push(Call::Pulses(channel, how_many(rng))),
            3 => calls.push(Call::Read(offset, 32)),
            4 => calls.extend(any_veto(rng, module)),
            5 if rng.one_in(3) => calls.extend(any_clear(rng, module)),
            6 => calls.push(Call::Read(0x10 + 4 * any_channel(rng), 16)),
            _ => calls.extend(telling_pulses(rng, module)),
        }
    }
    calls.push(Call::Read(offset + 2, 16));
    if rng.one_in(2) {
        calls.push(Call::Read(0x06, 16));
    }
    calls
}

/// An access of any width and direction at this offset.
pub fn access_at(rng: &mut Rng, offset: u32) -> Vec<Call> {
    let width = rng.pick(&[16, 32]);
    let data = match width {
        16 => any_half_word(rng),
        _ => any_value(rng),
    };
    vec![match rng.below(2) {
        0 => Call::Read(offset, width),
        _ => Call::Write(offset, width, data),
    }]
}

/// Any access to a register that there is; clears are rarer than the others.
fn any_access(rng: &mut Rng, module: &dyn Scaler) -> Vec<Call> {
    let rows: Vec<_> = module.table().iter().copied().flatten().collect();
    let mut row = rng.pick(&rows);
    if rng.one_in(2) {
        row = rows[rng.below(rows.len() - 32)];
    }
    if row.register == Register::Clear && !rng.one_in(4) {
        return vec![Call::Write(row.offset, 32, any_value(rng))];
    }
    access_at(rng, row.offset)
}

/// Offsets at which neither module, or the V260, has a register.
pub const BAD_OFFSETS: [u32; 40] = [
    0x00, 0x01, 0x02, 0x03, 0x05, 0x07, 0x09, 0x0B, 0x0D, 0x0E, 0x0F, 0x11, 0x13, 0x15, 0x4B, 0x4D,
    0x4F, 0x51, 0x53, 0x55, 0x57, 0x59, 0x5A, 0x5C, 0x60, 0x80, 0xF8, 0xFA, 0xFC, 0xFE, 0xFF,
    0x100, 0x104, 0x108, 0x110, 0x150, 0x1010, 0x8050, 0xFFFE, 0xFFFF,
];

/// An access to an offset that is not in the table, or nearly so.
fn bad_offset(rng: &mut Rng, module: &dyn Scaler) -> Vec<Call> {
    let rows: Vec<_> = module.table().iter().copied().flatten().collect();
    let offset = match rng.below(4) {
        0 => any_half_word(rng),
        1 => rng.pick(&rows).offset | 1,
        2 => rng.pick(&rows).offset + 0x100 * rng.between(1, 255) as u32,
        _ => rng.pick(&BAD_OFFSETS),
    };
    access_at(rng, offset)
}

/// The external trigger, for which there is no input.
fn trigger(_: &mut Rng, _: &dyn Scaler) -> Vec<Call> {
    vec![Call::Trigger]
}
