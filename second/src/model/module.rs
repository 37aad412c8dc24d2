//! What a trace asks of a module, whichever module it is.

use crate::model::log::Entry;
use crate::model::write_log::entry_bytes;

/// One call of a module, as one entry of a log asks for it.
#[derive(Clone, Copy, Debug, PartialEq, Eq)]
pub enum Call {
    /// The channel, and how many pulses its input gets.
    Pulses(u32, u32),
    /// Whether the front veto line is on from now on.
    VetoLine(bool),
    Test,
    ClearLine,
    Trigger,
    /// The offset and the width.
    Read(u32, u32),
    /// The offset, the width and the data.
    Write(u32, u32, u32),
    ManClr,
}

impl Call {
    /// The call that a good entry asks for.
    pub fn of(entry: &Entry) -> Call {
        let [first, second, third] = entry.arguments;
        match entry.kind {
            0 => Call::Pulses(first, second),
            1 => Call::VetoLine(first == 1),
            2 => Call::Test,
            3 => Call::ClearLine,
            4 => Call::Trigger,
            5 => Call::Read(first, second),
            6 => Call::Write(first, second, third),
            _ => Call::ManClr,
        }
    }

    /// The bytes of the entry that asks for this call.
    pub fn bytes(&self) -> Vec<u8> {
        match *self {
            Call::Pulses(channel, how_many) => entry_bytes(0, &[channel, how_many]),
            Call::VetoLine(on) => entry_bytes(1, &[u32::from(on)]),
            Call::Test => entry_bytes(2, &[]),
            Call::ClearLine => entry_bytes(3, &[]),
            Call::Trigger => entry_bytes(4, &[]),
            Call::Read(offset, width) => entry_bytes(5, &[offset, width]),
            Call::Write(offset, width, data) => entry_bytes(6, &[offset, width, data]),
            Call::ManClr => entry_bytes(7, &[]),
        }
    }
}

/// What a call gives besides the new state.
#[derive(Clone, Copy, Debug, PartialEq, Eq)]
pub struct Given {
    pub answer: u32,
    pub value: u32,
}

impl Given {
    /// The value of an accepted call, or the number of a refused one with value 0.
    pub fn new(outcome: Result<u32, u32>) -> Given {
        let answer = outcome.err().unwrap_or(0);
        let value = outcome.unwrap_or(0);
        Given { answer, value }
    }
}

/// A module that a trace shows: this program's own, or a wrong one in a test.
pub trait Module {
    /// Does what the call asks for.
    fn call(&mut self, call: Call) -> Given;
    /// The numbers of a line of the trace behind the answer and the value.
    fn columns(&self) -> Vec<u32>;
    /// Every word lent to the module as it now is, if it is one that is lent words.
    fn memory(&self) -> Option<&[u32]> {
        None
    }
}

#[cfg(test)]
mod tests {
    use super::*;
    use crate::model::log::read_entry;

    #[test]
    fn calls_are_written_and_read_as_document_01_says() {
        let calls: [(Call, &[u8]); 8] = [
            (Call::Pulses(31, 300), &[0, 31, 0xAC, 0x02]),
            (Call::VetoLine(true), &[1, 1]),
            (Call::Test, &[2]),
            (Call::ClearLine, &[3]),
            (Call::Trigger, &[4]),
            (Call::Read(0x10, 32), &[5, 0x10, 32]),
            (Call::Write(6, 16, 0xFF), &[6, 6, 16, 0xFF, 0x01]),
            (Call::ManClr, &[7]),
        ];
        for (call, bytes) in calls {
            assert_eq!(call.bytes(), bytes);
            assert_eq!(Call::of(&read_entry(bytes, 0)), call);
        }
    }
}
