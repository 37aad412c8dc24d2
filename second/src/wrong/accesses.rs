//! The accesses of a module that can be wrong on purpose.

use crate::wrong::modules::Wrong;
use crate::wrong::slips::Slip::*;

/// What a register takes: 32 bits, reads, writes; 16 bits are always taken.
type Takes = (bool, bool, bool);

impl Wrong {
    /// What stands at an offset.
    fn takes(&self, offset: u32) -> Option<Takes> {
        let is = |slip| self.slip == slip;
        Some(match offset {
            _ if offset % 2 == 1 => return None,
            0x04 => (false, self.wide || is(VectorOf260Readable), true),
            0x06 => (false, true, self.wide || is(LevelOf260Writable)),
            0x0E if self.wide || is(RequestRegisterOf260) => (false, true, true),
            0x08..=0x0C | 0x50..=0x56 => (is(CommandsOf32Bits), !is(CommandsByWriteOnly), true),
            0x10..=0x4E if offset % 4 == 0 => (true, true, is(CountersWritable)),
            0x10..=0x4E if is(LowerHalfUnknown) => return None,
            0x10..=0x4E => (is(LowerHalfOf32Bits), true, false),
            0x58 => (false, true, false),
            0xFA..=0xFE if is(IdentifierWords) => (false, true, false),
            _ => return None,
        })
    }

    /// The number of the refusal of an access, if it is refused.
    fn refusal(&self, offset: u32, width: u32, write: bool) -> Option<u32> {
        let takes = self.takes(offset);
        let unknown = takes.is_none();
        let (wide, read, written) = takes.unwrap_or((false, true, true));
        let mut checks = [
            (1, unknown),
            (2, width == 32 && !wide),
            (3, if write { !written } else { !read }),
        ];
        match self.slip {
            WidthBeforeOffset => checks.swap(0, 1),
            DirectionBeforeWidth => checks.swap(1, 2),
            _ => {}
        }
        let first = checks.iter().find(|(_, fails)| *fails);
        first.map(|(answer, _)| *answer)
    }

    /// An access with this module's slip.
    pub fn access(&mut self, offset: u32, width: u32, data: Option<u32>) -> Result<u32, u32> {
        let offset = match self.slip {
            PageWraps => offset % 256,
            OddOffsets => offset / 2 * 2,
            _ => offset,
        };
        if let Some(answer) = self.refusal(offset, width, data.is_some()) {
            return Err(answer);
        }
        match (offset, data) {
            (0x10..=0x4E, None) => Ok(self.read_counter(offset, width)),
            (0x08 | 0x0A | 0x0C | 0x50..=0x56, _) => self.command(offset, data),
            (_, None) => Ok(self.read_register(offset)),
            (_, Some(data)) => {
                self.write_register(offset, data);
                Ok(0)
            }
        }
    }

    /// A counter as it is read.
    fn word(&self, channel: usize) -> u32 {
        let count = self.counts[channel];
        if self.wide {
            return count;
        }
        let able = match self.slip {
            Bit31Sense => self.inhibited(),
            Bit31ByLineOnly => !self.line,
            _ => !self.inhibited(),
        };
        let ones = if self.slip == Bits24To30Zero { 0 } else { 0x7F };
        count + (ones << 24) + if able { 1 << 31 } else { 0 }
    }

    /// A read of a counter or a half of it.
    fn read_counter(&mut self, offset: u32, width: u32) -> u32 {
        let channel = (offset as usize - 0x10) / 4;
        let word = self.word(channel);
        let able = !self.inhibited();
        if offset % 4 == 2 {
            if self.slip == VetoLatchAtLowerHalf {
                self.able = able;
            }
            return self.lower_half(channel) % 65_536;
        }
        let passed_by = if width == 32 {
            VetoLatchNotAt32
        } else {
            VetoLatchNotAt16
        };
        if self.slip != passed_by {
            self.able = able;
        }
        if width == 32 && self.slip != LatchAt32 {
            return word;
        }
        self.last = word;
        match self.slip {
            LatchNotTaken => {}
            LatchOfLowHalf => self.latches[channel] = word % 65_536,
            _ => self.latches[channel] = word,
        }
        match self.slip {
            _ if width == 32 => word,
            HalvesSwapped => word % 65_536,
            _ => word / 65_536,
        }
    }

    /// The word whose lower half is read.
    fn lower_half(&mut self, channel: usize) -> u32 {
        let latch = self.latches[channel];
        match self.slip {
            LowHalfLive => self.word(channel),
            LowHalfOfAnother => self.latches[(channel + 1) % 16],
            LowHalfOfLast => self.last,
            HalvesSwapped => latch / 65_536,
            LowHalfOnce => {
                self.latches[channel] = 0;
                latch
            }
            _ => latch,
        }
    }

    /// Something that happens on an access.
    fn command(&mut self, offset: u32, data: Option<u32>) -> Result<u32, u32> {
        let passed_by = match self.slip {
            CommandReadsDoNothing => data.is_none(),
            CommandsLookAtData => data.unwrap_or(1) % 2 == 0,
            _ => false,
        };
        if passed_by {
            return Ok(0);
        }
        match offset {
            0x08 => self.enable(),
            0x0A => {
                self.enabled = false;
                self.requested &= self.slip != DisablingRemovesRequest;
            }
            0x0C => {
                self.requested = false;
                self.enabled &= self.slip != RemovalDisables;
            }
            0x50 => self.clear(),
            0x52 => self.vme = true,
            0x54 => {
                self.vme = false;
                self.line &= self.slip != VetoResetClearsLine;
            }
            _ => return self.test(),
        }
        let ones = self.slip == CommandsGiveOnes && data.is_none();
        Ok(if ones { 0xFFFF } else { 0 })
    }

    /// Enables generation.
    fn enable(&mut self) {
        self.enabled = true;
        self.requested &= self.slip != EnablingRemovesRequest;
        let asserted = |channel: usize| {
            let bit = self.watched(channel);
            bit.map_or(false, |bit| self.counts[channel] >> bit & 1 == 1)
                && self.may_request(channel)
        };
        if self.slip == RequestOnEnabling && self.level > 0 && (0..16).any(asserted) {
            self.requested = true;
        }
    }

    /// The clear access.
    fn clear(&mut self) {
        self.counts = [0; 16];
        self.requested &= self.slip == ClearKeepsRequest;
        self.enabled &= self.slip == ClearKeepsGeneration;
        match self.slip {
            ClearClearsVetoes => self.vme = false,
            ClearClearsLatches => self.latches = [0; 16],
            ClearSetsVetoLatch => self.able = true,
            ClearClearsSettings => {
                self.vector = 0;
                self.sections = 0;
            }
            _ => {}
        }
    }

    /// The content of a register.
    fn read_register(&self, offset: u32) -> u32 {
        let ones = |without| if self.slip == without { 0 } else { 0xFF00 };
        match (offset, self.wide) {
            (0x04, true) => ones(VectorWithoutOnes) + self.vector,
            (0x04, false) => self.vector,
            (0x06, true) => {
                let able = match self.slip {
                    VetoBitLive => !self.inhibited(),
                    VetoBitSense => !self.able,
                    _ => self.able,
                };
                let middle = if self.slip == LevelBits3To6Zero {
                    0
                } else {
                    0x78
                };
                ones(LevelHighZero) + if able { 0x80 } else { 0 } + middle + self.level
            }
            (0x06, false) if self.slip == LevelOf260Ones => 0xFFF8 + self.level,
            (0x06, false) => self.level,
            (0x0E, _) => ones(RequestWithoutOnes) + self.sections,
            (0x58, true) => ones(StatusWithoutOnes) + self.joined,
            (0x58, false) if self.slip == StatusOfJoins => self.joined,
            (0x58, false) => self.interrupts,
            _ => 0,
        }
    }

    /// Stores a register.
    fn write_register(&mut self, offset: u32, data: u32) {
        let bits = |right: u32, wrong: u32, slip| if self.slip == slip { wrong } else { right };
        match offset {
            0x04 => self.vector = data & bits(0xFF, 0xFFFF, VectorOf16Bits),
            0x06 => {
                self.level = data & bits(7, 0xFF, LevelOf8Bits);
                if self.slip == LevelWriteSetsVetoLatch {
                    self.able = data & 0x80 != 0;
                }
            }
            0x0E => self.sections = data & bits(0xFF, 0xFFFF, SectionsOf16Bits),
            _ => {}
        }
    }
}
