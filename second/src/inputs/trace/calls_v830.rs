//! Makes the calls of random traces of a V830, with an eye on what the module holds.

use crate::inputs::blocks::events::any_enable;
use crate::inputs::numbers::any_half_word;
use crate::inputs::rng::Rng;
use crate::inputs::trace::calls::{access_at, how_many, MOST_PULSES};
use crate::inputs::trace::scripts_v830::BAD_OFFSETS_830;
use crate::model::block::CHANNELS;
use crate::model::module::Call;
use crate::model::v830::{AUTO_RESET, CLEAR_EMPTIES, HEADER, MODE, RANDOM, SHORT, TABLE_830, V830};

/// A way of making the next calls.
type Maker = fn(&mut Rng, &V830) -> Vec<Call>;

/// What a run is mostly about: its makers, each with its share of the turns.
#[derive(Clone, Copy)]
pub struct Profile830 {
    /// Whether its runs mostly begin with Channel Enable and Control.
    pub sets_up: bool,
    makers: &'static [(usize, Maker)],
}

/// A profile of these makers.
const fn profile(sets_up: bool, makers: &'static [(usize, Maker)]) -> Profile830 {
    Profile830 { sets_up, makers }
}

/// Every profile.
pub const PROFILES_830: [(usize, Profile830); 7] = [
    (9, profile(true, &STORING)),
    (3, profile(true, &FILLING)),
    (3, profile(true, &ENABLING)),
    (4, profile(true, &CONTROLLING)),
    (2, profile(false, &COUNTING)),
    (2, profile(true, &ACCESSING)),
    (2, profile(false, &[(1, stray)])),
];

const STORING: [(usize, Maker); 11] = [
    (20, pulses_of_enabled),
    (6, any_pulses),
    (5, any_test),
    (4, any_veto),
    (22, trigger),
    (24, reading),
    (5, draining),
    (9, store_register),
    (3, counter_read),
    (2, enabling),
    (1, upsetting),
];

const FILLING: [(usize, Maker); 8] = [
    (10, pulses_of_enabled),
    (10, triggers),
    (4, reading),
    (1, draining),
    (4, store_register),
    (3, refused_control),
    (2, enabling),
    (1, any_clear),
];

const ENABLING: [(usize, Maker); 7] = [
    (6, pulses_of_enabled),
    (3, any_pulses),
    (6, trigger),
    (6, draining),
    (6, enabling),
    (4, store_register),
    (1, upsetting),
];

const CONTROLLING: [(usize, Maker); 9] = [
    (6, pulses_of_enabled),
    (2, any_test),
    (6, triggers),
    (5, reading),
    (3, control_write),
    (2, refused_control),
    (3, any_clear),
    (1, reset),
    (2, setting_up),
];

const COUNTING: [(usize, Maker); 7] = [
    (12, telling_pulses),
    (8, any_pulses),
    (4, any_test),
    (4, any_veto),
    (5, counter_read),
    (1, any_clear),
    (1, stray),
];

const ACCESSING: [(usize, Maker); 6] = [
    (10, any_access),
    (5, bad_offset),
    (4, pulses_of_enabled),
    (4, trigger),
    (3, reading),
    (1, man_clr),
];

/// The calls up to and with the next one or few that a profile makes.
pub fn next_calls_830(rng: &mut Rng, profile: Profile830, module: &V830) -> Vec<Call> {
    rng.pick_by_share(profile.makers)(rng, module)
}

/// A Channel Enable of which an event, or several, mostly fit into the memory.
fn fitting_enable(rng: &mut Rng, module: &V830) -> u32 {
    match rng.below(10) {
        0 => return u32::MAX,
        1 => return any_enable(rng),
        2 if rng.one_in(2) => return 0,
        _ => {}
    }
    let events = rng.between(1, 5);
    let most = (module.memory.len() / events).clamp(1, CHANNELS) as u32;
    let ones = rng.between(1, most as usize) as u32;
    let mut enable = 0u32;
    while enable.count_ones() < ones {
        enable |= 1 << rng.below(CHANNELS);
    }
    enable
}

/// Bits at random, or none, in the upper half of 16.
fn high_bits(rng: &mut Rng) -> u32 {
    match rng.below(3) {
        0 => rng.word() as u32 & 0xFF00,
        _ => 0,
    }
}

/// A Control content of mostly mode random.
fn any_control(rng: &mut Rng) -> u32 {
    let mode = rng.pick_by_share(&[(1, 0), (1, 2), (1, 3), (21, RANDOM)]);
    let mut on = |bit: u32, times: usize, of: usize| match rng.below(of) < times {
        true => bit,
        false => 0,
    };
    let bits = on(SHORT, 1, 3) | on(0x08, 1, 5) | on(0x10, 1, 5) | on(HEADER, 3, 5);
    let bits = bits | on(CLEAR_EMPTIES, 1, 2) | on(AUTO_RESET, 3, 4);
    mode | bits | high_bits(rng)
}

/// Channel Enable and Control, in either order.
pub fn setting_up(rng: &mut Rng, module: &V830) -> Vec<Call> {
    let enable = Call::Write(0x1100, 32, fitting_enable(rng, module));
    let control = Call::Write(0x1108, 16, any_control(rng));
    match rng.below(4) {
        0 => vec![enable, control],
        _ => vec![control, enable],
    }
}

/// Pulses on any channel.
fn any_pulses(rng: &mut Rng, _: &V830) -> Vec<Call> {
    let channel = rng.below(CHANNELS) as u32;
    vec![Call::Pulses(channel, how_many(rng))]
}

/// Pulses on one or two enabled channels; at times VETO is lifted first.
fn pulses_of_enabled(rng: &mut Rng, module: &V830) -> Vec<Call> {
    let channels = module.record.settings().channels();
    if channels.is_empty() {
        return any_pulses(rng, module);
    }
    let mut calls = Vec::new();
    if module.record.veto && rng.one_in(2) {
        calls.push(Call::VetoLine(false));
    }
    for _ in 0..rng.between(1, 2) {
        let channel = rng.pick(&channels) as u32;
        calls.push(Call::Pulses(channel, how_many(rng)));
    }
    calls
}

/// Pulses up to where a count wraps, or a little more, if some channel is near it.
fn telling_pulses(rng: &mut Rng, module: &V830) -> Vec<Call> {
    for _ in 0..12 {
        let channel = rng.below(CHANNELS);
        let until = u32::MAX - module.record.counts[channel];
        if until < MOST_PULSES - 4 {
            let pulses = until + rng.below(4) as u32;
            return vec![Call::Pulses(channel as u32, pulses)];
        }
    }
    any_pulses(rng, module)
}

/// TEST.
fn any_test(_: &mut Rng, _: &V830) -> Vec<Call> {
    vec![Call::Test]
}

/// The VETO line; one that is on mostly goes off.
fn any_veto(rng: &mut Rng, module: &V830) -> Vec<Call> {
    vec![Call::VetoLine(match module.record.veto {
        true => rng.one_in(4),
        false => !rng.one_in(4),
    })]
}

/// A trigger, by the line or by the register.
fn any_trigger(rng: &mut Rng) -> Call {
    match rng.below(2) {
        0 => Call::Trigger,
        _ => Call::Write(0x1124, 16, any_half_word(rng)),
    }
}

/// One trigger, in another mode than random mostly behind another Control.
fn trigger(rng: &mut Rng, module: &V830) -> Vec<Call> {
    let mut calls = match module.record.mode() != RANDOM && !rng.one_in(4) {
        true => setting_up(rng, module),
        false => Vec::new(),
    };
    calls.push(any_trigger(rng));
    calls
}

/// Several triggers, with pulses in between at times.
fn triggers(rng: &mut Rng, module: &V830) -> Vec<Call> {
    let mut calls = Vec::new();
    for _ in 0..rng.between(1, 5) {
        calls.push(any_trigger(rng));
        if rng.one_in(2) {
            calls.extend(pulses_of_enabled(rng, module));
        }
    }
    calls
}

/// A read somewhere in the memory window.
fn memory_read(rng: &mut Rng) -> Call {
    let offset = match rng.below(4) {
        0 => 4 * rng.below(1_024) as u32,
        1 => rng.pick(&[4, 0x800, 0xFF8, 0xFFC]),
        _ => 0,
    };
    Call::Read(offset, 32)
}

/// A few memory reads, or one of an empty memory.
fn reading(rng: &mut Rng, module: &V830) -> Vec<Call> {
    if module.record.stored == 0 {
        return vec![memory_read(rng)];
    }
    let words = rng.pick_by_share(&[(4, 1), (3, 2), (2, 3), (2, 6), (1, 12)]);
    (0..words).map(|_| memory_read(rng)).collect()
}

/// Memory reads of all that is stored, if it is not very much, and at times of one word more.
fn draining(rng: &mut Rng, module: &V830) -> Vec<Call> {
    let words = module.record.stored.min(34) + usize::from(rng.one_in(4));
    (0..words).map(|_| memory_read(rng)).collect()
}

/// A read of a register that tells of the store.
fn store_register(rng: &mut Rng, _: &V830) -> Vec<Call> {
    let reads = [
        Call::Read(0x1134, 16),
        Call::Read(0x1134, 16),
        Call::Read(0x1128, 32),
        Call::Read(0x1108, 16),
        Call::Read(0x1100, 32),
    ];
    vec![rng.pick(&reads)]
}

/// A read of a counter.
fn counter_read(rng: &mut Rng, _: &V830) -> Vec<Call> {
    vec![Call::Read(0x1000 + 4 * rng.below(CHANNELS) as u32, 32)]
}

/// A Channel Enable write, whether words are stored or not; at times of the value it has.
fn enabling(rng: &mut Rng, module: &V830) -> Vec<Call> {
    let mut calls = match rng.below(2) {
        0 => draining(rng, module),
        _ => Vec::new(),
    };
    let enable = match rng.below(4) {
        0 => module.record.enable,
        _ => fitting_enable(rng, module),
    };
    calls.push(Call::Write(0x1100, 32, enable));
    calls
}

/// Any of the three Control writes.
fn control_write(rng: &mut Rng, module: &V830) -> Vec<Call> {
    let data = rng.word() as u32 & rng.word() as u32 & 0xFF | high_bits(rng);
    let same = module.record.control;
    vec![match rng.below(8) {
        0..=2 => Call::Write(0x1108, 16, any_control(rng)),
        3 => Call::Write(0x1108, 16, same | high_bits(rng)),
        4 => Call::Write(0x110A, 16, data & !MODE | RANDOM),
        5 => Call::Write(0x110A, 16, data),
        6 => Call::Write(0x110C, 16, data & !MODE),
        _ => Call::Write(0x110C, 16, data),
    }]
}

/// A Control write whose result has both low bits 1.
fn refused_control(rng: &mut Rng, module: &V830) -> Vec<Call> {
    let data = any_control(rng);
    let other = !module.record.control & MODE;
    vec![match rng.below(3) {
        0 => Call::Write(0x1108, 16, data | MODE),
        1 => Call::Write(0x110A, 16, data & !MODE | other),
        _ => Call::Write(0x110A, 16, data | MODE),
    }]
}

/// CLEAR by the line or by the register.
fn any_clear(rng: &mut Rng, _: &V830) -> Vec<Call> {
    vec![match rng.below(2) {
        0 => Call::ClearLine,
        _ => Call::Write(0x1122, 16, any_half_word(rng)),
    }]
}

/// Software Reset, and at times all set up again.
fn reset(rng: &mut Rng, module: &V830) -> Vec<Call> {
    let mut calls = vec![Call::Write(0x1120, 16, any_half_word(rng))];
    if !rng.one_in(4) {
        calls.extend(setting_up(rng, module));
    }
    calls
}

/// What clears, resets or changes Control.
fn upsetting(rng: &mut Rng, module: &V830) -> Vec<Call> {
    rng.pick(&[any_clear as Maker, any_clear, control_write, reset])(rng, module)
}

/// Any access to a register that there is; what empties the memory is rarer than the others.
fn any_access(rng: &mut Rng, _: &V830) -> Vec<Call> {
    let [own, counters, window] = TABLE_830;
    let ends = [&window[..2], &window[1_022..]];
    let parts = [
        (4, own),
        (7, counters),
        (1, window),
        (1, ends[0]),
        (1, ends[1]),
    ];
    let rows = rng.pick_by_share(&parts);
    let offset = rng.pick(rows).offset;
    match offset {
        0x1108..=0x1122 if !rng.one_in(3) => vec![Call::Read(offset, rng.pick(&[16, 32]))],
        _ => access_at(rng, offset),
    }
}

/// An access to an offset that is not in the table, or nearly so.
fn bad_offset(rng: &mut Rng, _: &V830) -> Vec<Call> {
    let rows = rng.pick(&TABLE_830);
    let offset = match rng.below(4) {
        0 => any_half_word(rng),
        1 => rng.pick(rows).offset | rng.between(1, 3) as u32,
        2 => rng.pick(rows).offset + 0x2000 * rng.between(1, 7) as u32,
        _ => rng.pick(&BAD_OFFSETS_830),
    };
    access_at(rng, offset)
}

/// MAN CLR, for which there is no button.
fn man_clr(_: &mut Rng, _: &V830) -> Vec<Call> {
    vec![Call::ManClr]
}

/// Any call at all, of good arguments.
fn stray(rng: &mut Rng, module: &V830) -> Vec<Call> {
    match rng.below(9) {
        0 | 1 => any_pulses(rng, module),
        2 => vec![Call::VetoLine(rng.one_in(2))],
        3 => vec![Call::Test],
        4 => vec![Call::ClearLine],
        5 => vec![any_trigger(rng)],
        6 => vec![Call::ManClr],
        7 => bad_offset(rng, module),
        _ => {
            let rows = rng.pick(&TABLE_830);
            let offset = rng.pick(rows).offset;
            access_at(rng, offset)
        }
    }
}
