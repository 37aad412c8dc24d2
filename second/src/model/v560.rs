//! The V560: 16 channels of 32 bits in 8 sections, from 000 and document 01.

use crate::model::module::Given;
use crate::model::registers::{
    word_row, Directions, Register, Row, Table, COUNTER_ROWS, SHARED_ROWS,
};
use crate::model::scaler::{Held, Scaler};

/// The rows of table 4.1 of 000 that are not the V260's.
const OWN_ROWS: [Row; 3] = [
    word_row(0x04, Register::Vector, Directions::ReadWrite),
    word_row(0x06, Register::Level, Directions::ReadWrite),
    word_row(0x0E, Register::Request, Directions::ReadWrite),
];

/// The whole table.
pub const TABLE_560: Table = [&OWN_ROWS, &SHARED_ROWS, &COUNTER_ROWS];

/// Bits 8 to 15 of a register, which are read as one.
const UNUSED: u32 = 0xFF00;

/// A V560.
#[derive(Clone, Copy, Debug, PartialEq, Eq)]
pub struct V560 {
    /// Bit n: section n is joined.
    pub joined: u32,
    /// The low eight bits of the request register; bit n: section n may request.
    pub sections: u32,
    /// Whether the module was able to count at the last 32-bit or upper-half counter read.
    pub able: bool,
    pub held: Held,
}

impl V560 {
    /// The module at power-on.
    pub fn start(joined: u32) -> (Given, V560) {
        let module = V560 {
            joined,
            sections: 0,
            able: true,
            held: Held::at_power_on(0),
        };
        (Given::new(Ok(0)), module)
    }

    /// Whether the section of a channel is joined.
    fn in_joined_section(&self, channel: usize) -> bool {
        self.joined >> (channel / 2) & 1 == 1
    }
}

impl Scaler for V560 {
    /// What the module holds.
    fn held(&self) -> &Held {
        &self.held
    }

    /// What the module holds, to be changed.
    fn held_mut(&mut self) -> &mut Held {
        &mut self.held
    }

    /// Table 4.1.
    fn table(&self) -> &'static Table {
        &TABLE_560
    }

    /// 32 bits.
    fn all_ones(&self) -> u32 {
        u32::MAX
    }

    /// 000, 3.1: of a joined section, channel 2n is clocked by channel 2n+1.
    fn is_joined(&self, channel: usize) -> bool {
        channel % 2 == 0 && self.in_joined_section(channel)
    }

    /// The even channel of a joined section, clocked by the odd one.
    fn clocks(&self, channel: usize) -> Option<usize> {
        let low = channel % 2 == 1 && self.in_joined_section(channel);
        Some(channel ^ 1).filter(|_| low)
    }

    /// 000, 3.2: the 32nd bit, of the even channel only in a joined section.
    fn watched_bit(&self, channel: usize) -> Option<u32> {
        let low = channel % 2 == 1 && self.in_joined_section(channel);
        Some(31).filter(|_| !low)
    }

    /// 000, 4.9: by the bit of the section.
    fn may_request(&self, channel: usize) -> bool {
        self.sections >> (channel / 2) & 1 == 1
    }

    /// The count itself.
    fn word(&self, channel: usize) -> u32 {
        self.held.counts[channel]
    }

    /// 000, 4.8: the status of the VETO is latched.
    fn counter_is_read(&mut self) {
        self.able = !self.held.inhibited();
    }

    /// Bits 8 to 15 are one in every register, bits 3 to 6 in that of the level too.
    fn content(&self, register: Register) -> u32 {
        UNUSED
            | match register {
                Register::Vector => self.held.interrupter.vector,
                Register::Level => u32::from(self.able) << 7 | 0x78 | self.held.interrupter.level,
                Register::Request => self.sections,
                Register::Status => self.joined,
                _ => 0,
            }
    }

    /// Of the data only the field is kept.
    fn store(&mut self, register: Register, data: u32) {
        match register {
            Register::Vector => self.held.interrupter.vector = data & 0xFF,
            Register::Level => self.held.interrupter.level = data & 7,
            Register::Request => self.sections = data & 0xFF,
            _ => {}
        }
    }

    /// `sections` and `latch`.
    fn own_columns(&self) -> Vec<u32> {
        vec![self.sections, u32::from(self.able)]
    }
}
