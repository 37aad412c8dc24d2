//! The V830: 32 channels of 32 bits and an event memory, from 002 and document 01.

use crate::model::block::{
    write_event, Event, Settings, CHANNELS, LARGEST_GEO, LARGEST_SHORT_COUNT, NO_WORDS_IN_EVENT,
};
use crate::model::module::{Call, Given, Module};
use crate::model::registers::{find, long_row, word_row, Directions::*, Register, Row, Table};
use crate::model::scaler::{MALFORMED, NO_CHANNEL, NO_MEANING};

/// The registers of section 3.1 that are neither counters nor the window; where a row there and
/// the register's own section differ, the own section decides.
static OWN_ROWS: [Row; 9] = [
    long_row(0x1100, Register::ChannelEnable, ReadWrite),
    word_row(0x1108, Register::Control, ReadWrite),
    word_row(0x110A, Register::BitSet, WriteOnly),
    word_row(0x110C, Register::BitClear, WriteOnly),
    word_row(0x1120, Register::SoftwareReset, WriteOnly),
    word_row(0x1122, Register::SoftwareClear, WriteOnly),
    word_row(0x1124, Register::SoftwareTrigger, WriteOnly),
    long_row(0x1128, Register::TriggerCounter, ReadOnly),
    word_row(0x1134, Register::EventNumber, ReadOnly),
];

/// The counters, 0x1000 to 0x107C.
static COUNTERS: [Row; CHANNELS] = {
    let mut rows = [long_row(0x1000, Register::Counter(0), ReadOnly); CHANNELS];
    let mut channel = 1;
    while channel < CHANNELS {
        let offset = 0x1000 + 4 * channel as u32;
        rows[channel] = long_row(offset, Register::Counter(channel), ReadOnly);
        channel += 1;
    }
    rows
};

/// The memory window, every fourth offset from 0x0000 to 0x0FFC.
static WINDOW: [Row; 1_024] = {
    let mut rows = [long_row(0, Register::Memory, ReadOnly); 1_024];
    let mut place = 1;
    while place < rows.len() {
        rows[place] = long_row(4 * place as u32, Register::Memory, ReadOnly);
        place += 1;
    }
    rows
};

/// The whole table.
pub static TABLE_830: Table = [&OWN_ROWS, &COUNTERS, &WINDOW];

/// The numbers that this module answers, besides those of every module and of an event.
pub const NOTHING_STORED: u32 = 5;
pub const WORDS_STORED: u32 = 6;
pub const NOT_RANDOM: u32 = 7;
pub const TOO_FEW_FREE: u32 = 9;
pub const LENT_OTHERWISE: u32 = 10;

/// The most words of event memory.
pub const MOST_WORDS: usize = 32_768;

/// The bits of Control that do something.
pub const MODE: u32 = 0x03;
pub const SHORT: u32 = 0x04;
pub const HEADER: u32 = 0x20;
pub const CLEAR_EMPTIES: u32 = 0x40;
pub const AUTO_RESET: u32 = 0x80;
/// All of Control.
const CONTROL_BITS: u32 = 0xFF;

/// The mode in which triggers are accepted, and the one that the manual does not have.
pub const RANDOM: u32 = 1;
const NO_MODE: u32 = 3;

/// The source codes of a trigger by the register and by the line.
const BY_REGISTER: u32 = 0;
const BY_LINE: u32 = 1;

/// What the module holds besides the lent words.
#[derive(Clone, Copy, Debug, PartialEq, Eq)]
pub struct Record {
    pub geo: u32,
    pub control: u32,
    pub enable: u32,
    pub triggers: u32,
    pub veto: bool,
    pub capacity: usize,
    /// The place of the oldest stored word.
    pub first: usize,
    pub stored: usize,
    pub counts: [u32; CHANNELS],
}

/// A V830 and the words lent to it.
#[derive(Clone, Debug, PartialEq, Eq)]
pub struct V830 {
    pub record: Record,
    pub memory: Vec<u32>,
}

impl Record {
    /// The record at power-on; 3.6 says nothing of Channel Enable, which is so all ones.
    fn at_power_on(geo: u32, capacity: usize) -> Record {
        Record {
            geo,
            control: 0,
            enable: u32::MAX,
            triggers: 0,
            veto: false,
            capacity,
            first: 0,
            stored: 0,
            counts: [0; CHANNELS],
        }
    }

    /// What decides the layout of an event.
    pub fn settings(&self) -> Settings {
        Settings {
            header: self.control & HEADER != 0,
            short: self.control & SHORT != 0,
            enable: self.enable,
        }
    }

    /// The mode as a number.
    pub fn mode(&self) -> u32 {
        self.control & MODE
    }

    /// Whether the record is malformed; no count is above its width of 32 bits.
    fn malformed(&self) -> bool {
        self.geo > LARGEST_GEO
            || !(1..=MOST_WORDS).contains(&self.capacity)
            || self.first >= self.capacity
            || self.stored > self.capacity
            || self.stored > 0 && self.settings().length() == 0
            || self.mode() == NO_MODE
    }

    /// Empties the memory; no word is written.
    fn empty(&mut self) {
        self.first = 0;
        self.stored = 0;
    }

    /// CLEAR, by line or by register.
    fn clear(&mut self) {
        self.counts = [0; CHANNELS];
        if self.control & CLEAR_EMPTIES != 0 {
            self.empty();
        }
    }

    /// Everything as at power-on but for GEO, the lent words and the VETO line.
    fn reset(&mut self) {
        let veto = self.veto;
        *self = Record::at_power_on(self.geo, self.capacity);
        self.veto = veto;
    }

    /// Any of the three Control writes, by its result.
    fn set_control(&mut self, result: u32) -> Result<(), u32> {
        if result & MODE == NO_MODE {
            return Err(NO_MEANING);
        }
        self.control = result & CONTROL_BITS;
        self.counts = [0; CHANNELS];
        self.triggers = 0;
        self.empty();
        Ok(())
    }

    /// A Channel Enable write.
    fn set_enable(&mut self, data: u32) -> Result<(), u32> {
        if self.stored > 0 {
            return Err(WORDS_STORED);
        }
        self.enable = data;
        Ok(())
    }

    /// The events stored: the words by the event's length, rounded up.
    fn event_number(&self) -> u32 {
        if self.stored == 0 {
            return 0;
        }
        let length = self.settings().length();
        ((self.stored + length - 1) / length) as u32
    }

    /// The content of a register that is read and not the window.
    fn content(&self, register: Register) -> u32 {
        match register {
            Register::Counter(channel) => self.counts[channel],
            Register::ChannelEnable => self.enable,
            Register::Control => self.control,
            Register::TriggerCounter => self.triggers,
            Register::EventNumber => self.event_number(),
            _ => 0,
        }
    }

    /// The event that a trigger of this source takes, already counted.
    fn event(&self, source: u32) -> Event {
        let settings = self.settings();
        let mut event = Event::default();
        if settings.header {
            event.geo = self.geo;
            event.source = source;
            event.trigger = self.triggers & 0xFFFF;
        }
        let bits = if settings.short {
            LARGEST_SHORT_COUNT
        } else {
            u32::MAX
        };
        for channel in settings.channels() {
            event.counts[channel] = self.counts[channel] & bits;
        }
        event
    }
}

impl V830 {
    /// The module at power-on, lent these words, none of which is written.
    pub fn start(geo: u32, memory: Vec<u32>) -> (Given, V830) {
        let outcome = if geo > LARGEST_GEO {
            Err(MALFORMED)
        } else if !(1..=MOST_WORDS).contains(&memory.len()) {
            Err(LENT_OTHERWISE)
        } else {
            Ok(0)
        };
        let record = match outcome {
            Ok(_) => Record::at_power_on(geo, memory.len()),
            Err(_) => Record::at_power_on(0, 0),
        };
        (Given::new(outcome), V830 { record, memory })
    }

    /// Does what the call asks for, or gives the number of the refusal and changes nothing.
    fn attempt(&mut self, call: Call) -> Result<u32, u32> {
        if self.record.malformed() {
            return Err(MALFORMED);
        }
        match call {
            Call::Pulses(channel, how_many) => return self.give_pulses(channel, how_many),
            Call::Trigger => return self.lent_as_started().and_then(|_| self.trigger(BY_LINE)),
            Call::Read(offset, width) => return self.access(offset, width, None),
            Call::Write(offset, width, data) => return self.access(offset, width, Some(data)),
            Call::ManClr => return Err(NO_MEANING),
            Call::Test => (0..CHANNELS).for_each(|channel| self.count(channel, 1)),
            Call::ClearLine => self.record.clear(),
            Call::VetoLine(on) => self.record.veto = on,
        }
        Ok(0)
    }

    /// Gives pulses to an input; VETO stops inputs.
    fn give_pulses(&mut self, channel: u32, how_many: u32) -> Result<u32, u32> {
        if channel as usize >= CHANNELS {
            return Err(NO_CHANNEL);
        }
        if !self.record.veto {
            self.count(channel as usize, how_many);
        }
        Ok(0)
    }

    /// Adds pulses to a channel, enabled or not.
    fn count(&mut self, channel: usize, pulses: u32) {
        let count = &mut self.record.counts[channel];
        *count = count.wrapping_add(pulses);
    }

    /// Refuses a call that is lent other words than the start was.
    fn lent_as_started(&self) -> Result<(), u32> {
        match self.memory.len() == self.record.capacity {
            true => Ok(()),
            false => Err(LENT_OTHERWISE),
        }
    }

    /// One access, a write with its data.
    fn access(&mut self, offset: u32, width: u32, data: Option<u32>) -> Result<u32, u32> {
        self.lent_as_started()?;
        let register = find(&TABLE_830, offset, width, data.is_some())?;
        let control = self.record.control;
        match (register, data) {
            (Register::Memory, _) => return self.read_word(),
            (Register::SoftwareTrigger, _) => return self.trigger(BY_REGISTER),
            (Register::SoftwareReset, _) => self.record.reset(),
            (Register::SoftwareClear, _) => self.record.clear(),
            (Register::ChannelEnable, Some(data)) => self.record.set_enable(data)?,
            (Register::Control, Some(data)) => self.record.set_control(data)?,
            (Register::BitSet, Some(data)) => self.record.set_control(control | data)?,
            (Register::BitClear, Some(data)) => self.record.set_control(control & !data)?,
            _ => return Ok(self.record.content(register)),
        }
        Ok(0)
    }

    /// Hands out the oldest word and removes it; its place keeps it.
    fn read_word(&mut self) -> Result<u32, u32> {
        let record = &mut self.record;
        if record.stored == 0 {
            return Err(NOTHING_STORED);
        }
        let word = self.memory[record.first];
        record.first = (record.first + 1) % record.capacity;
        record.stored -= 1;
        Ok(word)
    }

    /// A trigger of this source.
    fn trigger(&mut self, source: u32) -> Result<u32, u32> {
        let record = &mut self.record;
        let settings = record.settings();
        let length = settings.length();
        if record.mode() != RANDOM {
            return Err(NOT_RANDOM);
        }
        if length == 0 {
            return Err(NO_WORDS_IN_EVENT);
        }
        if record.capacity - record.stored < length {
            return Err(TOO_FEW_FREE);
        }
        record.triggers = record.triggers.wrapping_add(1);
        let mut words = vec![0; length];
        write_event(&settings, &record.event(source), &mut words);
        for word in words {
            let place = (record.first + record.stored) % record.capacity;
            self.memory[place] = word;
            record.stored += 1;
        }
        if record.control & AUTO_RESET != 0 {
            record.counts = [0; CHANNELS];
        }
        Ok(0)
    }
}

impl Module for V830 {
    /// Does what the call asks for.
    fn call(&mut self, call: Call) -> Given {
        Given::new(self.attempt(call))
    }

    /// GEO, the registers, VETO, the store and the counts.
    fn columns(&self) -> Vec<u32> {
        let record = &self.record;
        let mut columns = vec![
            record.geo,
            record.control,
            record.enable,
            record.triggers,
            u32::from(record.veto),
            record.capacity as u32,
            record.first as u32,
            record.stored as u32,
        ];
        columns.extend(record.counts);
        columns
    }

    /// The lent words.
    fn memory(&self) -> Option<&[u32]> {
        Some(&self.memory)
    }
}
