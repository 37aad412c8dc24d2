//! The accesses, triggers and memory reads of a V830 that can be wrong on purpose.

use crate::wrong::v830::Wrong830;
use crate::wrong::v830_slips::Slip830::*;

/// What a register takes: 16 bits, 32 bits, reads, writes.
type Takes = (bool, bool, bool, bool);

impl Wrong830 {
    /// What stands at an offset.
    fn takes(&self, offset: u32) -> Option<Takes> {
        let is = |slip| self.slip == slip;
        let window_end = if is(WindowTooLong) { 0x0FFF } else { 0x0FFC };
        Some(match offset {
            0x0004..=0x0FFC if is(WindowFirstOnly) => return None,
            _ if offset <= window_end => {
                let step = if is(WindowEverySecond) { 2 } else { 4 };
                if offset % step != 0 && !(is(WindowTooLong) && offset > 0x0FFC) {
                    return None;
                }
                (is(WindowTakes16), true, true, is(WindowWritable))
            }
            0x1060 if is(Counter24Missing) => return None,
            0x1000..=0x107F if offset % 4 == 0 => (is(CountersTake16), true, true, false),
            0x1000..=0x107F if offset % 4 == 2 && is(LowerHalves) => (true, false, true, false),
            0x1100 => (is(EnableTakes16), true, true, true),
            0x1104 if is(DwellKnown) => (false, true, true, true),
            0x1108 => (true, is(ControlTakes32), true, true),
            0x110A => (true, false, is(BitSetReadable), true),
            0x110C if !is(BitClearMissing) => (true, false, false, true),
            0x110E if is(StatusKnown) => (true, false, true, false),
            0x1120 => (true, false, is(ResetReadable), true),
            0x1122 => (true, false, false, true),
            0x1124 => (true, is(TriggerWide), false, true),
            0x1128 => (is(TriggerCounterOf16), !is(TriggerCounterOf16), true, false),
            0x1134 => (!is(EventNumberOf32), is(EventNumberOf32), true, false),
            _ => return None,
        })
    }

    /// The number of the refusal of an access by the table, if it is refused.
    fn refusal(&self, offset: u32, width: u32, write: bool) -> Option<u32> {
        let takes = self.takes(offset);
        let (short, long, read, written) = takes.unwrap_or((true, false, true, true));
        let mut checks = [
            (1, takes.is_none()),
            (2, if width == 16 { !short } else { !long }),
            (3, if write { !written } else { !read }),
        ];
        match self.slip {
            WidthBeforeOffset => checks.swap(0, 1),
            DirectionBeforeWidth => checks.swap(1, 2),
            FiveBeforeTwo if offset <= 0x0FFC && offset % 4 == 0 && !write && self.stored == 0 => {
                return Some(5);
            }
            SixBeforeTwo if offset == 0x1100 && write && self.stored > 0 => return Some(6),
            _ => {}
        }
        let first = checks.iter().find(|(_, fails)| *fails);
        first.map(|(answer, _)| *answer)
    }

    /// An access with this module's slip.
    pub fn access(&mut self, offset: u32, width: u32, data: Option<u32>) -> Result<u32, u32> {
        let offset = match self.slip {
            PageWraps => offset % 0x2000,
            OddOffsets => offset / 2 * 2,
            _ => offset,
        };
        if let Some(answer) = self.refusal(offset, width, data.is_some()) {
            return Err(answer);
        }
        match (offset, data) {
            (0..=0x0FFF, None) => return self.read_word(offset),
            (0x1124, Some(_)) => return self.trigger(0),
            (0x1120, Some(_)) => self.reset(),
            (0x1122, Some(_)) => self.clear(false),
            (0x1100, Some(data)) => return self.enable_write(data),
            (0x1108..=0x110C, Some(data)) => return self.control_write(offset, data),
            (_, None) => return Ok(self.content(offset)),
            _ => {}
        }
        Ok(0)
    }

    /// The content of a register.
    fn content(&mut self, offset: u32) -> u32 {
        match offset {
            0x1000..=0x107F => self.read_counter((offset as usize - 0x1000) / 4),
            0x1100 => self.enable,
            0x1108 if self.slip == ControlReadsOnes => 0xFF00 | self.control,
            0x1108 | 0x110A => self.control,
            0x1128 if self.slip == TriggerCountOf16Bits => self.triggers % 65_536,
            0x1128 => self.triggers,
            0x1134 => self.event_number(),
            _ => 0,
        }
    }

    /// A read of a counter.
    fn read_counter(&mut self, channel: usize) -> u32 {
        let count = self.counts[channel];
        match self.slip {
            CountersLatched if self.random() => self.latched[channel],
            CounterOf26InShort if self.control & 4 != 0 => (channel as u32) << 27 | count,
            CountersReadOnce => {
                self.counts[channel] = 0;
                count
            }
            _ => count,
        }
    }

    /// MEB Event Number.
    fn event_number(&self) -> u32 {
        let length = self.length();
        match self.slip {
            NumberOfWords => self.stored,
            NumberOneMore if length > 0 => self.stored / length + 1,
            _ if self.stored == 0 => 0,
            NumberRoundedDown => self.stored / length,
            EventNumberOf15Bits => ((self.stored - 1) / length.max(1) + 1) % 32_768,
            _ => (self.stored - 1) / length.max(1) + 1,
        }
    }

    /// The event's length in words.
    fn length(&self) -> u32 {
        self.enable.count_ones() + self.control / 32 % 2
    }

    /// A memory read.
    fn read_word(&mut self, offset: u32) -> Result<u32, u32> {
        if self.stored == 0 {
            return if self.slip == EmptyReadIsGood {
                Ok(0)
            } else {
                Err(5)
            };
        }
        let further = match self.slip {
            NewestFirst => self.stored - 1,
            ReadByOffset => offset / 4 % self.stored,
            _ => 0,
        };
        let place = ((self.first + further) % self.capacity) as usize;
        let word = self.memory[place];
        if self.slip == ReadZeroes {
            self.memory[place] = 0;
        }
        if self.slip != ReadLeaves {
            self.stored -= 1;
        }
        match self.slip {
            NewestFirst | ReadLeaves => {}
            LastReadSetsFirst if self.stored == 0 => self.first = 0,
            FirstPastEnd if self.first + 1 == self.capacity && self.stored == 0 => {
                self.first = self.capacity;
            }
            _ => self.first = (self.first + 1) % self.capacity,
        }
        Ok(word)
    }

    /// The number of the refusal of a trigger, if it is refused.
    fn neglected(&self) -> Option<u32> {
        let length = self.length();
        let nothing = length == 0 || self.slip == HeaderAloneIs8 && self.enable == 0;
        let end = self.first % self.capacity + self.stored + length;
        let full = match self.slip {
            OverwritesOldest => length > self.capacity,
            FullOneEarly => self.capacity - self.stored <= length,
            FullMargin33 => {
                self.stored + 33 > self.capacity || self.stored + length > self.capacity
            }
            FreedNotReused => self.stored + length > self.capacity || end > self.capacity,
            _ => self.stored + length > self.capacity,
        };
        let veto = self.slip == VetoStopsTriggers && self.veto;
        let mut checks = [
            (7, !self.random() || veto),
            (8, nothing && self.slip != EightIsGood),
            (9, full),
        ];
        match self.slip {
            EightBeforeSeven => checks.swap(0, 1),
            NineBeforeSeven => checks.swap(0, 2),
            _ => {}
        }
        let first = checks.iter().find(|(_, fails)| *fails);
        first.map(|(answer, _)| *answer)
    }

    /// A trigger of this source.
    pub fn trigger(&mut self, source: u32) -> Result<u32, u32> {
        if let Some(answer) = self.neglected() {
            let auto = self.control & 0x80 != 0;
            match self.slip {
                NeglectedResets if answer == 9 && auto => self.counts = [0; 32],
                NeglectedCounts if answer == 9 => self.triggers += 1,
                DisabledTriggerCounts if answer == 7 => self.triggers += 1,
                _ => {}
            }
            return Err(answer);
        }
        let number = self.triggers;
        self.triggers = self.triggers.wrapping_add(1);
        if self.slip == ResetBeforeTaking && self.control & 0x80 != 0 {
            self.counts = [0; 32];
        }
        self.latched = self.counts;
        let number = if self.slip == NumberBeforeCount {
            number
        } else {
            number + 1
        };
        let words = self.event(source, number);
        self.store(&words);
        self.auto_reset();
        Ok(0)
    }

    /// What an accepted trigger does to the counters.
    fn auto_reset(&mut self) {
        let on = match self.slip {
            AutoResetAlways => true,
            AutoResetNever => false,
            _ => self.control & 0x80 != 0,
        };
        for channel in 0..32 {
            if on && (self.slip != AutoResetOfEnabledOnly || self.enabled(channel)) {
                self.counts[channel] = 0;
            }
        }
        if on && self.slip == AutoResetClearsTriggers {
            self.triggers = 0;
        }
    }

    /// Stores the words of an event.
    fn store(&mut self, words: &[u32]) {
        for word in words {
            if self.stored == self.capacity {
                self.first = (self.first + 1) % self.capacity;
                self.stored -= 1;
            }
            let mut place = (self.first + self.stored) % self.capacity;
            if self.slip == NoWrapInEvent && self.first + self.stored >= self.capacity {
                place = self.capacity - 1;
            }
            self.memory[place as usize] = *word;
            self.stored += 1;
        }
    }

    /// The words of an event.
    fn event(&self, source: u32, number: u32) -> Vec<u32> {
        let mut channels: Vec<usize> = (0..32).filter(|channel| self.enabled(*channel)).collect();
        let header = self.header(source, number, channels.len() as u32);
        match self.slip {
            DataDescending => channels.reverse(),
            ChannelsMirrored => channels
                .iter_mut()
                .for_each(|channel| *channel = 31 - *channel),
            _ => {}
        }
        let data = channels.iter().enumerate();
        let mut words: Vec<u32> = data
            .map(|(turn, channel)| self.datum(turn, *channel))
            .collect();
        match (self.control & 0x20 != 0, self.slip) {
            (false, _) => {}
            (true, HeaderLast) => words.push(header),
            (true, _) => words.insert(0, header),
        }
        words
    }

    /// The header of an event of so many channels.
    fn header(&self, source: u32, number: u32, channels: u32) -> u32 {
        let geo = if self.slip == HeaderWithoutGeo {
            0
        } else {
            self.geo
        };
        let bit = if self.slip == HeaderWithoutBit26 {
            0
        } else {
            1 << 26
        };
        let channels = match self.slip {
            HeaderCountOfAll => 32,
            HeaderCountOfWords => channels + 1,
            _ => channels,
        };
        let source = match self.slip {
            SourcesSwapped => 1 - source,
            SourceAlways0 => 0,
            SourceAlways1 => 1,
            _ => source,
        };
        let number = match self.slip {
            NumberOf3Bits => number % 8,
            NumberOf32Bits => number,
            _ => number % 65_536,
        };
        (geo << 27 | bit | channels << 18 | source << 16).wrapping_add(number)
    }

    /// The datum of a channel, which is the event's so-manieth.
    fn datum(&self, turn: usize, channel: usize) -> u32 {
        let count = match self.slip {
            TestModeStoresZeros if self.control & 8 != 0 => 0,
            _ => self.counts[channel],
        };
        let short = (self.control & 4 != 0) != (self.slip == FormatSwapped);
        let bits = match self.slip {
            ShortNotMasked => 32,
            ShortOf27Bits => 27,
            _ => 26,
        };
        let masked = (u64::from(count) % (1 << bits)) as u32;
        let front = match self.slip {
            ShortWithoutChannel => 0,
            ShortChannelByTurns => turn as u32,
            _ => channel as u32,
        };
        match short {
            true => front << 27 | masked,
            false if self.slip == LongMasked => masked,
            false => count,
        }
    }
}
