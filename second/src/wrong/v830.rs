//! A V830 made once more, which can be wrong on purpose: start, counting, lines, Control, store.

use crate::listings::trace_head::{Head, HeadSwitches};
use crate::model::module::{Call, Given, Module};
use crate::wrong::v830_slips::Slip830::{self, *};

/// A V830 that is wrong in one way.
pub struct Wrong830 {
    pub slip: Slip830,
    pub geo: u32,
    pub control: u32,
    pub enable: u32,
    pub triggers: u32,
    pub veto: bool,
    pub capacity: u32,
    pub first: u32,
    pub stored: u32,
    pub counts: [u32; 32],
    /// The counts at the last accepted trigger.
    pub latched: [u32; 32],
    pub memory: Vec<u32>,
}

impl Wrong830 {
    /// The module of a head, and what its start gives.
    pub fn start(slip: Slip830, head: &Head) -> (Given, Wrong830) {
        let (mut geo, capacity) = match head.switches {
            HeadSwitches::V830([geo, capacity]) => (geo, capacity),
            _ => unreachable!("the other modules have wrong ones of their own"),
        };
        if slip == StartCutsGeo {
            geo %= 32;
        }
        let most_geo = if slip == StartTakesGeo32 { 32 } else { 31 };
        let most = if slip == StartTakes32769 {
            32_769
        } else {
            32_768
        };
        let bad_length = capacity > most || capacity == 0 && slip != StartTakesNoWords;
        let mut checks = [(12, geo > most_geo), (10, bad_length)];
        if slip == LengthBeforeGeo {
            checks.swap(0, 1);
        }
        let refusal = checks.iter().find(|(_, fails)| *fails);
        let good = refusal.is_none();
        let mut memory: Vec<u32> = (0..capacity).map(|place| place + 1).collect();
        if slip == StartZeroesMemory {
            memory.fill(0);
        }
        let module = Wrong830 {
            slip,
            geo: if good || slip == RefusedStartKeepsGeo {
                geo
            } else {
                0
            },
            control: 0,
            enable: if slip == StartEnablesNone { 0 } else { !0 },
            triggers: 0,
            veto: false,
            capacity: if good || slip == RefusedStartKeepsCapacity {
                capacity
            } else {
                0
            },
            first: 0,
            stored: 0,
            counts: head.counts[..].try_into().expect("32 counts"),
            latched: [0; 32],
            memory,
        };
        let told = refusal.filter(|_| slip != RefusedStartAnswers0);
        (
            Given::new(told.map_or(Ok(0), |(answer, _)| Err(*answer))),
            module,
        )
    }

    /// Whether a channel is enabled.
    pub fn enabled(&self, channel: usize) -> bool {
        self.enable & 1 << channel != 0
    }

    /// Whether triggers are accepted.
    pub fn random(&self) -> bool {
        match (self.slip, self.control & 3) {
            (ModesSwapped, mode) => mode == 2,
            (PeriodicalTriggers, mode) => mode > 0,
            (_, mode) => mode == 1,
        }
    }

    /// Whether the record is malformed.
    fn malformed(&self) -> bool {
        let most = if self.slip == StartTakes32769 {
            32_769
        } else {
            32_768
        };
        self.capacity == 0 || self.capacity > most
    }

    /// Adds pulses to a channel.
    fn count(&mut self, channel: usize, pulses: u32) {
        let passed_by = match self.slip {
            DisabledDoNotCount => !self.enabled(channel),
            CountsInRandomOnly => !self.random(),
            _ => false,
        };
        if passed_by {
            return;
        }
        let sum = u64::from(self.counts[channel]) + u64::from(pulses);
        self.counts[channel] = match self.slip {
            Width26 => (sum % (1 << 26)) as u32,
            CountStops => sum.min(0xFFFF_FFFF) as u32,
            _ => (sum % (1 << 32)) as u32,
        };
    }

    /// TEST.
    fn test(&mut self) {
        for channel in 0..32 {
            let passed_by = match self.slip {
                VetoStopsTest => self.veto,
                TestOfEnabledOnly => !self.enabled(channel),
                TestWithout31 => channel == 31,
                _ => false,
            };
            if !passed_by {
                self.count(channel, 1);
            }
        }
    }

    /// Empties the memory.
    pub fn empty(&mut self) {
        if self.slip == EmptyingZeroesWords {
            self.memory.fill(0);
        }
        if self.slip != EmptyingKeepsFirst {
            self.first = 0;
        }
        self.stored = 0;
    }

    /// CLEAR.
    pub fn clear(&mut self, by_line: bool) {
        if self.slip == VetoStopsClear && self.veto {
            return;
        }
        for channel in 0..32 {
            let kept = self.slip == ClearOfEnabledOnly && !self.enabled(channel);
            if !kept && self.slip != ClearKeepsCounters {
                self.counts[channel] = 0;
            }
        }
        let empties = match self.slip {
            ClearEmptiesAlways => true,
            ClearEmptiesNever => false,
            LineEmptiesOnly => by_line && self.control & 0x40 != 0,
            RegisterEmptiesAlways => !by_line || self.control & 0x40 != 0,
            _ => self.control & 0x40 != 0,
        };
        if empties {
            self.empty();
        }
        match self.slip {
            ClearZeroesTriggers => self.triggers = 0,
            RegisterClearsTriggers if !by_line => self.triggers = 0,
            _ => {}
        }
    }

    /// Software Reset.
    pub fn reset(&mut self) {
        let is = |slip| self.slip == slip;
        let enable = if is(ResetEnablesNone) { 0 } else { !0 };
        let (keeps_words, keeps_first) = (is(ResetKeepsWords), is(ResetKeepsFirst));
        self.enable = if is(ResetKeepsEnable) {
            self.enable
        } else {
            enable
        };
        self.control = if is(ResetKeepsControl) {
            self.control
        } else {
            0
        };
        self.triggers = if is(ResetKeepsTriggers) {
            self.triggers
        } else {
            0
        };
        self.counts = if is(ResetKeepsCounters) {
            self.counts
        } else {
            [0; 32]
        };
        self.geo = if is(ResetClearsGeo) { 0 } else { self.geo };
        self.veto &= self.slip != ResetLiftsVeto;
        if !keeps_words {
            let first = self.first;
            self.empty();
            self.first = if keeps_first { first } else { self.first };
        }
        if self.slip == ResetZeroesWords {
            self.memory.fill(0);
        }
    }

    /// A write of Control (0x1108), Bit Set (0x110A) or Bit Clear (0x110C).
    pub fn control_write(&mut self, offset: u32, data: u32) -> Result<u32, u32> {
        let bits = if self.slip == ControlOf16Bits {
            0xFFFF
        } else {
            0xFF
        };
        let old = self.control;
        let result = bits
            & match (offset, self.slip) {
                (0x1108, _) | (0x110A, SetReplaces) => data,
                (0x110A, _) => old | data,
                (_, ClearReplaces) => !data & 0xFC,
                (_, ClearKeepsBits) => old & data,
                _ => old & !data,
            };
        let looked_at = match (offset, self.slip) {
            (0x110A, SetLooksAtData) | (0x110C, ClearLooksAtData) => data,
            _ => result,
        };
        if looked_at & 3 == 3 && self.slip != Mode3Accepted {
            match self.slip {
                RefusedControlClears => self.empty(),
                RefusedControlResets => self.counts = [0; 32],
                _ => {}
            }
            return Err(4);
        }
        self.control = if self.slip == Bits3And4Lost {
            result & !0x18
        } else {
            result
        };
        let same = self.slip == SameControlKeeps && old == result;
        if same || self.slip == SetKeepsEverything && offset == 0x110A {
            return Ok(0);
        }
        if self.slip != ControlKeepsCounters {
            self.counts = [0; 32];
        }
        if self.slip != ControlKeepsTriggers {
            self.triggers = 0;
        }
        let kept = self.slip == ControlKeepsWords && offset == 0x1108
            || self.slip == ClearBitsKeepsWords && offset == 0x110C;
        if !kept {
            self.empty();
        }
        match self.slip {
            ControlResetsEnable => self.enable = !0,
            ControlLiftsVeto => self.veto = false,
            _ => {}
        }
        Ok(0)
    }

    /// A write of Channel Enable.
    pub fn enable_write(&mut self, data: u32) -> Result<u32, u32> {
        let excused = match self.slip {
            EnableWhileStored => true,
            SameEnableWhileStored => data == self.enable,
            _ => false,
        };
        if self.stored > 0 && !excused || self.slip == EnableOnlyInMode0 && self.control & 3 > 0 {
            return Err(6);
        }
        self.enable = if self.slip == EnableOf16Bits {
            data & 0xFFFF
        } else {
            data
        };
        match self.slip {
            EnableEmpties => self.empty(),
            EnableZeroesCounters => self.counts = [0; 32],
            _ => {}
        }
        Ok(0)
    }

    /// MAN CLR.
    fn man_clr(&mut self) -> Result<u32, u32> {
        match self.slip {
            ManClrIsGood => return Ok(0),
            ManClrClears => self.counts = [0; 32],
            _ => {}
        }
        Err(4)
    }

    /// Does what a call asks for.
    fn attempt(&mut self, call: Call) -> Result<u32, u32> {
        match (self.slip, call) {
            (ManClrBefore12, Call::ManClr) => return Err(4),
            (SevenBefore12, Call::Trigger) if !self.random() => return Err(7),
            _ if self.malformed() => return Err(12),
            _ => {}
        }
        match call {
            Call::Pulses(_, _) if self.veto && self.slip != VetoIgnored => {}
            Call::Pulses(channel, pulses) => {
                let most = if self.slip == FirstPulseOnly {
                    1
                } else {
                    pulses
                };
                self.count(channel as usize, pulses.min(most));
            }
            Call::Test => self.test(),
            Call::Trigger => return self.trigger(1),
            Call::Read(offset, width) => return self.access(offset, width, None),
            Call::Write(offset, width, data) => return self.access(offset, width, Some(data)),
            Call::VetoLine(on) if self.slip == VetoToggles => self.veto ^= on,
            Call::VetoLine(on) => self.veto = on,
            Call::ClearLine => self.clear(true),
            Call::ManClr => return self.man_clr(),
        }
        Ok(0)
    }
}

impl Module for Wrong830 {
    /// Does what a call asks for.
    fn call(&mut self, call: Call) -> Given {
        let mut given = Given::new(self.attempt(call));
        if self.slip == RefusedValue && given.answer == 5 {
            given.value = 0xFFFF_FFFF;
        }
        given
    }

    /// The numbers of a line of the trace behind the answer and the value.
    fn columns(&self) -> Vec<u32> {
        let veto = if self.veto { 1 } else { 0 };
        let mut columns = vec![self.geo, self.control, self.enable, self.triggers, veto];
        columns.extend([self.capacity, self.first, self.stored]);
        columns.extend(self.counts);
        columns
    }

    /// The lent words.
    fn memory(&self) -> Option<&[u32]> {
        Some(&self.memory)
    }
}
