//! A V260 and a V560 made once more, which can be wrong on purpose: start, counting, lines.

use crate::listings::trace_head::{Head, HeadSwitches};
use crate::model::module::{Call, Given, Module};
use crate::wrong::slips::Slip::{self, *};

/// A V260 or V560 that is wrong in one way.
#[derive(Clone, Debug)]
pub struct Wrong {
    pub slip: Slip,
    /// Whether it is a V560.
    pub wide: bool,
    pub joined: u32,
    pub interrupts: u32,
    jumpers: u32,
    pub enabled: bool,
    pub requested: bool,
    pub level: u32,
    pub vector: u32,
    pub line: bool,
    pub vme: bool,
    pub sections: u32,
    pub able: bool,
    pub counts: [u32; 16],
    pub latches: [u32; 16],
    /// The word latched last, of whichever channel.
    pub last: u32,
}

impl Wrong {
    /// The module of a head, and what its start gives.
    pub fn start(slip: Slip, head: &Head) -> (Given, Wrong) {
        let (wide, [joined, interrupts, jumpers, level]) = match head.switches {
            HeadSwitches::V260(switches) => (false, switches),
            HeadSwitches::V560([joined]) => (true, [joined, 0, 0, 0]),
            HeadSwitches::V830(_) => unreachable!("a V830 has wrong modules of its own"),
        };
        let most = if slip == StartTakesLevel8 { 8 } else { 7 };
        let refused = level > most && slip != StartNeverRefuses;
        let kept = !refused || slip == RefusedStartKeepsLevel;
        let module = Wrong {
            slip,
            wide,
            joined,
            interrupts,
            jumpers,
            enabled: false,
            requested: false,
            level: if kept { level } else { 8 },
            vector: 0,
            line: false,
            vme: false,
            sections: 0,
            able: slip != VetoLatch0AtStart,
            counts: head.counts[..].try_into().expect("sixteen counts"),
            latches: [0; 16],
            last: 0,
        };
        let told = refused && slip != RefusedStartAnswers0;
        (Given::new(if told { Err(12) } else { Ok(0) }), module)
    }

    /// Whether the record is malformed.
    fn malformed(&self) -> bool {
        let most = match self.wide || self.slip == CountsOfAnyWidth {
            true => u32::MAX,
            false => 0xFF_FFFF,
        };
        self.level > 7 || self.counts.iter().any(|count| *count > most)
    }

    /// The largest count.
    fn all_ones(&self) -> u32 {
        match self.wide || self.slip == Width32 {
            true => 0xFFFF_FFFF,
            false => 0xFF_FFFF,
        }
    }

    /// Whether either veto is on.
    pub fn inhibited(&self) -> bool {
        self.line && self.slip != LineIgnored || self.vme && self.slip != VmeIgnored
    }

    /// The channel that clocks this one, if it is not its own input.
    fn clocked_by(&self, channel: usize) -> Option<usize> {
        if !self.wide {
            let step = if self.slip == CarryToWrongNeighbour {
                1
            } else {
                15
            };
            let joined = self.joined & 1 << channel != 0;
            return if joined {
                Some((channel + step) % 16)
            } else {
                None
            };
        }
        let section = match self.slip {
            SectionsReversed => 7 - channel / 2,
            _ => channel / 2,
        };
        let high = if self.slip == HighAndLowSwapped { 1 } else { 0 };
        match self.joined & 1 << section != 0 && channel % 2 == high {
            true if self.slip == CarryToWrongNeighbour => Some((channel + 15) % 16),
            true => Some(channel ^ 1),
            false => None,
        }
    }

    /// The channel that this one clocks.
    pub fn next(&self, channel: usize) -> Option<usize> {
        if self.slip == NoRoundPast15 && channel == 15 && !self.wide {
            return None;
        }
        (0..16).find(|next| self.clocked_by(*next) == Some(channel))
    }

    /// One pulse on an input.
    fn pulse(&mut self, channel: usize) {
        let all_joined = self.joined == 0xFFFF && self.slip == AllSixteenCount;
        let own = self.clocked_by(channel).is_none();
        if !self.inhibited() && (own || all_joined || self.slip == JoinedInputCounts) {
            self.count(channel);
        }
    }

    /// Adds one to a channel and to those behind it.
    fn count(&mut self, first: usize) {
        let all_ones = self.all_ones();
        let most = match self.slip {
            CarriesAtMost(most) => most,
            _ => 15,
        };
        let mut channel = first;
        for depth in 0..=most {
            let old = self.counts[channel];
            let new = if old == all_ones { 0 } else { old + 1 };
            self.counts[channel] = new;
            let own_input = depth == 0 || self.slip != RequestOfOwnInput;
            if own_input && self.requests(channel, old, new) {
                self.requested = true;
            }
            let carries = match self.slip {
                CarryOnAllOnes => new == all_ones,
                CarryOnTopBit => old == all_ones / 2,
                _ => new == 0,
            };
            match self.next(channel) {
                Some(next) if carries => channel = next,
                _ => return,
            }
        }
    }

    /// The watched bit of a channel, if any.
    pub fn watched(&self, channel: usize) -> Option<u32> {
        let off_by_one = u32::from(self.slip == WatchedBitOffByOne);
        if self.wide {
            let joined = self.joined & 1 << (channel / 2) != 0;
            let watched = match self.slip {
                OddBit31Requests => true,
                JoinedNeverRequests => !joined,
                _ => !joined || channel % 2 == 0,
            };
            return if watched { Some(31 - off_by_one) } else { None };
        }
        let first_of_jp17 = if self.slip == JumperOfChannel8 { 9 } else { 8 };
        let jp17 = (channel >= first_of_jp17) != (self.slip == JumpersSwapped);
        let inserted = self.jumpers & if jp17 { 2 } else { 1 } != 0;
        let bit = if inserted != (self.slip == JumperSense) {
            23
        } else {
            15
        };
        Some(bit - off_by_one)
    }

    /// Whether a channel is enabled to request.
    pub fn may_request(&self, channel: usize) -> bool {
        let allowed = match self.slip {
            RequestOfAnyChannel => return true,
            RequestOfLastOfRun => self.next(channel).is_none(),
            RequestOfUnjoined => self.clocked_by(channel).is_none(),
            _ => true,
        };
        let bit = match (self.wide, self.slip) {
            (false, _) => self.interrupts >> channel,
            (true, SectionOfChannel) => self.sections >> (channel % 8),
            (true, _) => self.sections >> (channel / 2),
        };
        allowed && bit % 2 == 1
    }

    /// Whether a step of a channel's count raises a request.
    fn requests(&self, channel: usize, old: u32, new: u32) -> bool {
        let bit = match self.watched(channel) {
            None => return false,
            Some(bit) => 1 << bit,
        };
        let asserted = match self.slip {
            RequestByLevel => new & bit != 0,
            RequestOnFalling => old & bit != 0 && new & bit == 0,
            _ => old & bit == 0 && new & bit != 0,
        };
        let enabled = self.enabled || self.slip == RequestWhileOff;
        let level = self.level > 0 || self.slip == RequestAtLevel0;
        asserted && enabled && level && self.may_request(channel)
    }

    /// TEST or Scale Increase.
    pub fn test(&mut self) -> Result<u32, u32> {
        let excused = match self.slip {
            TestWithJoins => true,
            Test4OnlyWhenFree => self.inhibited(),
            _ => false,
        };
        if self.joined != 0 && !excused {
            return Err(4);
        }
        let standing = self.requested;
        if !self.inhibited() || self.slip == TestWhileInhibited {
            (0..16).for_each(|channel| self.count(channel));
        }
        if self.slip == TestRaisesNothing {
            self.requested = standing;
        }
        Ok(0)
    }

    /// The CLEAR line.
    fn clear_line(&mut self) {
        if self.slip != ClearLineNotInhibited || !self.inhibited() {
            self.counts = [0; 16];
        }
        self.requested &= self.slip != ClearLineRemovesRequest;
        self.enabled &= self.slip != ClearLineDisables;
        if self.slip == ClearLineClearsLatches {
            self.latches = [0; 16];
        }
    }

    /// MAN CLR.
    fn man_clr(&mut self) {
        if self.slip != ManClrKeepsCounts {
            self.counts = [0; 16];
        }
        self.requested &= self.slip == ManClrKeepsRequest;
        self.enabled &= self.slip == ManClrKeepsGeneration;
        self.vme &= self.slip == ManClrKeepsVme;
        self.line &= self.slip != ManClrClearsLine;
        if self.slip == ManClrClearsLatches {
            self.latches = [0; 16];
        }
    }

    /// The front veto line.
    fn veto_line(&mut self, on: bool) {
        match self.slip {
            VetoLineToggles => self.line ^= on,
            VetoLineSetsVme => self.vme = on,
            _ => self.line = on,
        }
    }

    /// Pulses on an input.
    fn pulses(&mut self, channel: u32, how_many: u32) -> Result<u32, u32> {
        let excused = match self.slip {
            Channel16Wraps => true,
            ZeroOn16IsGood => how_many == 0,
            _ => false,
        };
        if channel > 15 && !excused {
            return Err(11);
        }
        let channel = channel as usize % 16;
        if self.slip == JoinedInputIs4 && self.clocked_by(channel).is_some() {
            return Err(4);
        }
        let how_many = match self.slip {
            FirstPulseOnly => how_many.min(1),
            ZeroPulsesAreOne => how_many.max(1),
            _ => how_many.min(1_000),
        };
        (0..how_many).for_each(|_| self.pulse(channel));
        Ok(0)
    }

    /// Does what a call asks for; what a refused one has changed is changed back by the caller.
    fn attempt(&mut self, call: Call) -> Result<u32, u32> {
        match (self.slip, call) {
            (TriggerBefore12, Call::Trigger) => return Err(4),
            (ElevenBefore12, Call::Pulses(16.., _)) => return Err(11),
            _ if self.malformed() => return Err(12),
            (TriggerIsGood, Call::Trigger) => return Ok(0),
            _ => {}
        }
        match call {
            Call::Pulses(channel, how_many) => return self.pulses(channel, how_many),
            Call::Test => return self.test(),
            Call::Trigger => return Err(4),
            Call::Read(offset, width) => return self.access(offset, width, None),
            Call::Write(offset, width, data) => return self.access(offset, width, Some(data)),
            Call::VetoLine(on) => self.veto_line(on),
            Call::ClearLine => self.clear_line(),
            Call::ManClr => self.man_clr(),
        }
        Ok(0)
    }
}

impl Module for Wrong {
    /// Does what a call asks for; a refused one leaves everything as it was.
    fn call(&mut self, call: Call) -> Given {
        let before = self.clone();
        let outcome = self.attempt(call);
        if outcome.is_err() {
            *self = before;
        }
        let mut given = Given::new(outcome);
        if self.slip == RefusedValue && given.answer == 1 {
            given.value = 0xFFFF;
        }
        given
    }

    /// The numbers of a line of the trace behind the answer and the value.
    fn columns(&self) -> Vec<u32> {
        let bit = |on: bool| if on { 1 } else { 0 };
        let mut columns = vec![
            bit(self.enabled),
            bit(self.requested),
            self.level,
            self.vector,
        ];
        columns.extend([bit(self.line), bit(self.vme)]);
        if self.wide {
            columns.extend([self.sections, bit(self.able)]);
        }
        columns.extend(self.counts);
        columns.extend(self.latches);
        columns
    }
}
