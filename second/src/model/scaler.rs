//! What the V260 and the V560 have in common, from document 01 and sections 3 to 5 of 001 and 000.

use crate::model::module::{Call, Given, Module};
use crate::model::registers::{find, Register, Table};

/// The channels of either module.
pub const CHANNELS: usize = 16;

/// The highest interrupt level, and that of the record which a refused start gives.
pub const HIGHEST_LEVEL: u32 = 7;
pub const REFUSED_LEVEL: u32 = 8;

/// The numbers that these modules answer, besides 1 to 3 of an access.
pub const NO_MEANING: u32 = 4;
pub const NO_CHANNEL: u32 = 11;
pub const MALFORMED: u32 = 12;

/// The interrupter.
#[derive(Clone, Copy, Debug, PartialEq, Eq)]
pub struct Interrupter {
    /// Whether generation is enabled.
    pub enabled: bool,
    pub requested: bool,
    pub level: u32,
    pub vector: u32,
}

/// What either module holds.
#[derive(Clone, Copy, Debug, PartialEq, Eq)]
pub struct Held {
    pub interrupter: Interrupter,
    /// Whether the front veto line is on.
    pub line: bool,
    /// Whether the VME veto is set.
    pub vme: bool,
    pub counts: [u32; CHANNELS],
    /// Each counter's whole word, as latched at the last 16-bit read of its upper half.
    pub latches: [u32; CHANNELS],
}

impl Held {
    /// What a module holds at power-on.
    pub fn at_power_on(level: u32) -> Held {
        Held {
            interrupter: Interrupter {
                enabled: false,
                requested: false,
                level,
                vector: 0,
            },
            line: false,
            vme: false,
            counts: [0; CHANNELS],
            latches: [0; CHANNELS],
        }
    }

    /// Whether the module is inhibited, by the front line or by the VME setting.
    pub fn inhibited(&self) -> bool {
        self.line || self.vme
    }

    /// Zeroes the scales, removes the request and disables generation.
    fn clear(&mut self) {
        self.counts = [0; CHANNELS];
        self.interrupter.requested = false;
        self.interrupter.enabled = false;
    }
}

/// In what the two modules differ.
pub trait Scaler {
    /// What the module holds.
    fn held(&self) -> &Held;
    /// What the module holds, to be changed.
    fn held_mut(&mut self) -> &mut Held;
    /// Its register table.
    fn table(&self) -> &'static Table;
    /// The largest count.
    fn all_ones(&self) -> u32;
    /// Whether another channel, and not its own input, clocks this channel.
    fn is_joined(&self, channel: usize) -> bool;
    /// The channel that this one clocks as it goes from all ones to 0, if any.
    fn clocks(&self, channel: usize) -> Option<usize>;
    /// The bit of this channel that requests, if any.
    fn watched_bit(&self, channel: usize) -> Option<u32>;
    /// Whether the channel, or its section, is enabled to request.
    fn may_request(&self, channel: usize) -> bool;
    /// The counter as it is read.
    fn word(&self, channel: usize) -> u32;
    /// What a 32-bit or upper-half read of a counter does besides.
    fn counter_is_read(&mut self) {}
    /// The content of a register that is not a counter and does nothing.
    fn content(&self, register: Register) -> u32;
    /// Stores a register that can be written.
    fn store(&mut self, register: Register, data: u32);
    /// The columns of a trace between the VME veto and the counts.
    fn own_columns(&self) -> Vec<u32>;
}

/// Whether the record is malformed.
fn malformed(scaler: &dyn Scaler) -> bool {
    let held = scaler.held();
    let too_large = |count: &u32| *count > scaler.all_ones();
    held.interrupter.level > HIGHEST_LEVEL || held.counts.iter().any(too_large)
}

/// Does what the call asks for, or gives the number of the refusal and changes nothing.
fn attempt(scaler: &mut dyn Scaler, call: Call) -> Result<u32, u32> {
    if malformed(scaler) {
        return Err(MALFORMED);
    }
    match call {
        Call::Pulses(channel, how_many) => return give_pulses(scaler, channel, how_many),
        Call::Test => return test(scaler),
        Call::Trigger => return Err(NO_MEANING),
        Call::Read(offset, width) => return access(scaler, offset, width, None),
        Call::Write(offset, width, data) => return access(scaler, offset, width, Some(data)),
        Call::VetoLine(on) => scaler.held_mut().line = on,
        Call::ClearLine => scaler.held_mut().counts = [0; CHANNELS],
        Call::ManClr => {
            scaler.held_mut().clear();
            scaler.held_mut().vme = false;
        }
    }
    Ok(0)
}

/// Gives pulses to an input, one after the other.
fn give_pulses(scaler: &mut dyn Scaler, channel: u32, how_many: u32) -> Result<u32, u32> {
    let channel = channel as usize;
    if channel >= CHANNELS {
        return Err(NO_CHANNEL);
    }
    if !scaler.held().inhibited() && !scaler.is_joined(channel) {
        for _ in 0..how_many {
            advance(scaler, channel);
        }
    }
    Ok(0)
}

/// Adds one to each channel, unless the module is inhibited.
fn test(scaler: &mut dyn Scaler) -> Result<u32, u32> {
    if (0..CHANNELS).any(|channel| scaler.is_joined(channel)) {
        return Err(NO_MEANING);
    }
    if !scaler.held().inhibited() {
        for channel in 0..CHANNELS {
            advance(scaler, channel);
        }
    }
    Ok(0)
}

/// Adds one to a channel, and to those that it clocks.
fn advance(scaler: &mut dyn Scaler, channel: usize) {
    let mut clocked = Some(channel);
    while let Some(channel) = clocked {
        let before = scaler.held().counts[channel];
        let after = if before == scaler.all_ones() {
            0
        } else {
            before + 1
        };
        scaler.held_mut().counts[channel] = after;
        request(scaler, channel, before, after);
        clocked = match after {
            0 => scaler.clocks(channel),
            _ => None,
        };
    }
}

/// Raises a request if a watched bit has gone from 0 to 1 and nothing withholds it.
fn request(scaler: &mut dyn Scaler, channel: usize, before: u32, after: u32) {
    let watched = scaler.watched_bit(channel).map_or(0, |bit| 1 << bit);
    let asserted = before & watched == 0 && after & watched != 0;
    let interrupter = scaler.held().interrupter;
    let allowed = interrupter.enabled && interrupter.level != 0 && scaler.may_request(channel);
    if asserted && allowed {
        scaler.held_mut().interrupter.requested = true;
    }
}

/// One access, a write with its data.
fn access(scaler: &mut dyn Scaler, offset: u32, width: u32, data: Option<u32>) -> Result<u32, u32> {
    let register = find(scaler.table(), offset, width, data.is_some())?;
    match (register, data) {
        (Register::Counter(channel), _) => return Ok(read_counter(scaler, channel, width)),
        (Register::LowerHalf(channel), _) => {
            return Ok(scaler.held().latches[channel] & 0xFFFF);
        }
        (Register::ScaleIncrease, _) => return test(scaler),
        (Register::Clear, _) => scaler.held_mut().clear(),
        (Register::VetoSet, _) => scaler.held_mut().vme = true,
        (Register::VetoReset, _) => scaler.held_mut().vme = false,
        (Register::Enable, _) => scaler.held_mut().interrupter.enabled = true,
        (Register::Disable, _) => scaler.held_mut().interrupter.enabled = false,
        (Register::RemoveRequest, _) => scaler.held_mut().interrupter.requested = false,
        (_, None) => return Ok(scaler.content(register)),
        (_, Some(data)) => scaler.store(register, data),
    }
    Ok(0)
}

/// A read at a counter's own offset: the whole word, or its upper half with the word latched.
fn read_counter(scaler: &mut dyn Scaler, channel: usize, width: u32) -> u32 {
    let word = scaler.word(channel);
    scaler.counter_is_read();
    if width == 32 {
        return word;
    }
    scaler.held_mut().latches[channel] = word;
    word >> 16
}

impl Module for Box<dyn Scaler> {
    /// Does what the call asks for.
    fn call(&mut self, call: Call) -> Given {
        Given::new(attempt(self.as_mut(), call))
    }

    /// The interrupter, the vetoes, the module's own columns, the counts and the latches.
    fn columns(&self) -> Vec<u32> {
        let held = self.held();
        let interrupter = held.interrupter;
        let mut columns = vec![
            u32::from(interrupter.enabled),
            u32::from(interrupter.requested),
            interrupter.level,
            interrupter.vector,
            u32::from(held.line),
            u32::from(held.vme),
        ];
        columns.extend(self.own_columns());
        columns.extend(held.counts);
        columns.extend(held.latches);
        columns
    }
}
