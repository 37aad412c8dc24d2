//! The V260: 16 channels of 24 bits, from 001 and document 01.

use crate::model::module::Given;
use crate::model::registers::{
    word_row, Directions, Register, Row, Table, COUNTER_ROWS, SHARED_ROWS,
};
use crate::model::scaler::{Held, Scaler, CHANNELS, HIGHEST_LEVEL, MALFORMED, REFUSED_LEVEL};

/// The rows of table 4.1 of 001 that are not the V560's.
const OWN_ROWS: [Row; 2] = [
    word_row(0x04, Register::Vector, Directions::WriteOnly),
    word_row(0x06, Register::Level, Directions::ReadOnly),
];

/// The whole table.
pub const TABLE_260: Table = [&OWN_ROWS, &SHARED_ROWS, &COUNTER_ROWS];

/// The largest count of 24 bits.
pub const ALL_ONES_24: u32 = 0xFF_FFFF;

/// The switches, fixed when the module is made.
#[derive(Clone, Copy, Debug, PartialEq, Eq)]
pub struct Switches {
    /// Bit n: channel n is joined to the one before it (0 to 15).
    pub joined: u32,
    /// Bit n: channel n may request.
    pub interrupts: u32,
    /// JP18, for channels 0 to 7, is inserted.
    pub jp18: bool,
    /// JP17, for channels 8 to 15, is inserted.
    pub jp17: bool,
}

/// A V260.
#[derive(Clone, Copy, Debug, PartialEq, Eq)]
pub struct V260 {
    pub switches: Switches,
    pub held: Held,
}

impl V260 {
    /// The module at power-on; a level above 7 is refused.
    pub fn start(switches: Switches, level: u32) -> (Given, V260) {
        let refused = level > HIGHEST_LEVEL;
        let outcome = if refused { Err(MALFORMED) } else { Ok(0) };
        let level = if refused { REFUSED_LEVEL } else { level };
        let held = Held::at_power_on(level);
        (Given::new(outcome), V260 { switches, held })
    }
}

impl Scaler for V260 {
    /// What the module holds.
    fn held(&self) -> &Held {
        &self.held
    }

    /// What the module holds, to be changed.
    fn held_mut(&mut self) -> &mut Held {
        &mut self.held
    }

    /// Table 4.1.
    fn table(&self) -> &'static Table {
        &TABLE_260
    }

    /// 24 bits.
    fn all_ones(&self) -> u32 {
        ALL_ONES_24
    }

    /// 001, 3.1: connected to the preceding one.
    fn is_joined(&self, channel: usize) -> bool {
        self.switches.joined >> channel & 1 == 1
    }

    /// The channel behind this one, 0 behind 15, if it is joined.
    fn clocks(&self, channel: usize) -> Option<usize> {
        let next = (channel + 1) % CHANNELS;
        Some(next).filter(|next| self.is_joined(*next))
    }

    /// 001, 3.2: jumper present, the 24th bit; removed, the 16th.
    fn watched_bit(&self, channel: usize) -> Option<u32> {
        let inserted = match channel {
            0..=7 => self.switches.jp18,
            _ => self.switches.jp17,
        };
        Some(if inserted { 23 } else { 15 })
    }

    /// 001, 3.2: by the changeover switch of the channel.
    fn may_request(&self, channel: usize) -> bool {
        self.switches.interrupts >> channel & 1 == 1
    }

    /// 24 bits, bits 24 to 30 one, bit 31 one when able to count.
    fn word(&self, channel: usize) -> u32 {
        let able = u32::from(!self.held.inhibited());
        able << 31 | 0x7F00_0000 | self.held.counts[channel]
    }

    /// The level has no bit above 2; the status is that of the 16 switches.
    fn content(&self, register: Register) -> u32 {
        match register {
            Register::Level => self.held.interrupter.level,
            Register::Status => self.switches.interrupts,
            _ => 0,
        }
    }

    /// The vector is the only register that is written.
    fn store(&mut self, register: Register, data: u32) {
        if register == Register::Vector {
            self.held.interrupter.vector = data & 0xFF;
        }
    }

    /// None.
    fn own_columns(&self) -> Vec<u32> {
        Vec::new()
    }
}
