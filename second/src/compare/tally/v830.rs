//! Counts what the runs of a V830 gave, so that a comparison that never saw a thing is noticed.

use crate::compare::tally::row::{shown_together, Row};
use crate::compare::tally::scalers::{access_of, all_accesses, Access};
use crate::listings::own_module::{own_start, Own};
use crate::listings::trace_head::Head;
use crate::model::block::CHANNELS;
use crate::model::module::{Call, Module};
use crate::model::v830::{Record, AUTO_RESET, HEADER, SHORT, TABLE_830, V830};

/// Every answer of a call. 10 is the start's only: behind it the words lent are always those of the
/// start. 11 cannot be: a log's channel is at most 31.
const ANSWERS: [u32; 11] = [0, 1, 2, 3, 4, 5, 6, 7, 8, 9, 12];

/// What a replay cannot give. Its module is always started with GEO 0 and the same words, so that no
/// start is refused, no later call is lent other words (10) and no record is malformed (12): no call
/// makes one so. A log's channel is at most 31, and so 11 cannot be either. No event is longer than an
/// empty memory of 16,384 words, and no count comes near 2^32 by pulse entries that are counted quickly.
const NEVER_ANSWERED: [u32; 2] = [10, 12];
const NEVER_IN_REPLAY: [&str; 4] = [
    "line 9, nothing stored",
    "register 9, nothing stored",
    "past 2^32",
    "TEST past 2^32",
];

/// What became of triggers, by the line and then by the register.
const TRIGGERS: [&str; 12] = [
    "line accepted",
    "line 7 in mode 0",
    "line 7 in mode 2",
    "line 8",
    "line 9",
    "line 9, nothing stored",
    "register accepted",
    "register 7 in mode 0",
    "register 7 in mode 2",
    "register 8",
    "register 9",
    "register 9, nothing stored",
];

/// The formats of accepted events.
const FORMATS: [&str; 8] = [
    "long",
    "short",
    "long+header",
    "short+header",
    "long, AUTO RESET",
    "short, AUTO RESET",
    "long+header, AUTO RESET",
    "short+header, AUTO RESET",
];

/// The places and lengths of accepted events.
const EVENTS: [&str; 7] = [
    "inside",
    "up to the end",
    "across the end",
    "memory then full",
    "a header alone",
    "one datum alone",
    "33 words",
];

/// What memory reads and MEB Event Number did.
const READS: [&str; 6] = [
    "a word of several",
    "the last word, first place moved on",
    "the last place, then place 0",
    "number 0",
    "number exact",
    "number rounded up",
];

/// What emptied a memory whose first place was not 0, and what left words stored.
const STORES: [&str; 12] = [
    "emptied by Control",
    "emptied by Bit Set",
    "emptied by Bit Clear",
    "emptied by reset",
    "emptied by CLEAR",
    "emptied by Software Clear",
    "left by CLEAR",
    "left by Software Clear",
    "left by a refused Control",
    "left by a refused Bit Set",
    "left by a refused Channel Enable",
    "left by Channel Enable as it is",
];

/// What else writes did.
const WRITES: [&str; 6] = [
    "Control as it is",
    "4 by Control",
    "4 by Bit Set of one bit",
    "Channel Enable changed",
    "reset under VETO",
    "reset of Channel Enable",
];

/// How pulses counted.
const PULSES: [&str; 8] = [
    "input",
    "input of a disabled channel",
    "input under VETO",
    "no pulse",
    "past 2^32",
    "TEST",
    "TEST under VETO",
    "TEST past 2^32",
];

/// What the runs gave.
pub struct V830Tally {
    answers: Row<u32>,
    starts: Row<u32>,
    triggers: Row<&'static str>,
    formats: Row<&'static str>,
    events: Row<&'static str>,
    reads: Row<&'static str>,
    stores: Row<&'static str>,
    writes: Row<&'static str>,
    modes: Row<u32>,
    bits: Row<u32>,
    pulses: Row<&'static str>,
    accesses: Row<Access>,
    window: Row<u32>,
    channels: Row<u32>,
}

impl Default for V830Tally {
    /// Nothing seen yet of modules that are started anyhow.
    fn default() -> V830Tally {
        V830Tally::without(&[], &[])
    }
}

impl V830Tally {
    /// Nothing seen yet of the module of a replay.
    pub fn of_replay() -> V830Tally {
        V830Tally::without(&NEVER_ANSWERED, &NEVER_IN_REPLAY)
    }

    /// Nothing seen yet, these answers and these things not being possible.
    fn without(numbers: &[u32], things: &[&str]) -> V830Tally {
        let [own, counters, window] = TABLE_830;
        let ends = [&window[..2], &window[1_022..]];
        let answered = |all: &[u32]| -> Vec<u32> {
            let mut all = all.to_vec();
            all.retain(|answer| !numbers.contains(answer));
            all
        };
        let done = |all: &[&'static str]| -> Vec<&'static str> {
            let mut all = all.to_vec();
            all.retain(|thing| !things.contains(thing));
            all
        };
        V830Tally {
            answers: Row::new("V830 answers", answered(&ANSWERS)),
            starts: Row::new("V830 starts", answered(&[0, 10, 12])),
            triggers: Row::new("V830 triggers", done(&TRIGGERS)),
            formats: Row::new("V830 formats", FORMATS),
            events: Row::new("V830 events", EVENTS),
            reads: Row::new("V830 memory reads", READS),
            stores: Row::new("V830 stored words", STORES),
            writes: Row::new("V830 writes", WRITES),
            modes: Row::new("V830 modes", [0, 1, 2]),
            bits: Row::new("V830 Control bits", 0..=7),
            pulses: Row::new("V830 pulses", done(&PULSES)),
            accesses: Row::new(
                "V830 accesses",
                all_accesses(&[own, counters, ends[0], ends[1]]),
            ),
            window: Row::new("V830 window by 64", 0..64),
            channels: Row::new("V830 pulsed 0..31", 0..=31),
        }
    }

    /// Counts a start and the calls behind it.
    pub fn add_run(&mut self, head: &Head, calls: impl Iterator<Item = Call>) {
        let (given, module) = own_start(head);
        self.starts.add(given.answer);
        if let Own::V830(mut module) = module {
            calls.for_each(|call| self.add(&mut module, call));
        }
    }

    /// Counts one call and does it.
    fn add(&mut self, module: &mut V830, call: Call) {
        let before = module.record;
        let answer = module.call(call).answer;
        let after = module.record;
        self.answers.add(answer);
        if let Some(access) = access_of(call) {
            self.accesses.add(access);
        }
        match call {
            _ if answer == 12 => {}
            Call::Pulses(channel, pulses) => self.add_pulses(&before, channel, pulses),
            Call::Test => self.add_test(&before),
            Call::Trigger => self.add_trigger(&before, &after, answer, 0),
            Call::Write(0x1124, 16, _) => self.add_trigger(&before, &after, answer, 6),
            Call::Read(0x1134, 16) => self.add_number(&before),
            Call::Read(offset, 32) if offset < 0x1000 && answer == 0 => {
                self.window.add(offset / 64);
                self.add_read(&before);
            }
            _ => self.add_change(&before, &after, call, answer),
        }
    }

    /// Counts pulses on an input.
    fn add_pulses(&mut self, before: &Record, channel: u32, pulses: u32) {
        self.channels.add(channel);
        if pulses == 0 {
            return self.pulses.add("no pulse");
        }
        if before.veto {
            return self.pulses.add("input under VETO");
        }
        let enabled = before.enable >> channel & 1 == 1;
        self.pulses.add(match enabled {
            true => "input",
            false => "input of a disabled channel",
        });
        if before.counts[channel as usize]
            .checked_add(pulses)
            .is_none()
        {
            self.pulses.add("past 2^32");
        }
    }

    /// Counts TEST.
    fn add_test(&mut self, before: &Record) {
        self.pulses.add(match before.veto {
            true => "TEST under VETO",
            false => "TEST",
        });
        if before.counts.contains(&u32::MAX) {
            self.pulses.add("TEST past 2^32");
        }
    }

    /// Counts a trigger by the line (from 0) or by the register (from 6).
    fn add_trigger(&mut self, before: &Record, after: &Record, answer: u32, from: usize) {
        let what = match answer {
            0 => 0,
            7 if before.mode() == 0 => 1,
            7 => 2,
            8 => 3,
            _ if before.stored > 0 => 4,
            _ => 5,
        };
        self.triggers.add(TRIGGERS[from + what]);
        if answer == 0 {
            self.add_event(before, after);
        }
    }

    /// Counts an accepted event.
    fn add_event(&mut self, before: &Record, after: &Record) {
        let on = |bit: u32, much: usize| usize::from(before.control & bit != 0) * much;
        let format = on(SHORT, 1) + on(HEADER, 2) + on(AUTO_RESET, 4);
        self.formats.add(FORMATS[format]);
        let length = after.stored - before.stored;
        let place = (before.first + before.stored) % before.capacity;
        self.events.add(match place + length {
            end if end < before.capacity => "inside",
            end if end == before.capacity => "up to the end",
            _ => "across the end",
        });
        if after.stored == after.capacity {
            self.events.add("memory then full");
        }
        match (length, before.enable) {
            (1, 0) => self.events.add("a header alone"),
            (1, _) => self.events.add("one datum alone"),
            (33, _) => self.events.add("33 words"),
            _ => {}
        }
    }

    /// Counts a memory read that was answered.
    fn add_read(&mut self, before: &Record) {
        let at_end = before.first + 1 == before.capacity;
        self.reads.add(match (before.stored, at_end) {
            (_, true) => "the last place, then place 0",
            (1, _) => "the last word, first place moved on",
            _ => "a word of several",
        });
    }

    /// Counts a read of MEB Event Number.
    fn add_number(&mut self, before: &Record) {
        self.reads.add(match before.stored {
            0 => "number 0",
            stored if stored % before.settings().length() == 0 => "number exact",
            _ => "number rounded up",
        });
    }

    /// Counts what may empty the memory or change a setting.
    fn add_change(&mut self, before: &Record, after: &Record, call: Call, answer: u32) {
        let is_control = matches!(call, Call::Write(0x1108 | 0x110A | 0x110C, 16, _));
        if is_control && answer == 0 {
            self.modes.add(after.mode());
            let bits = (0..8).filter(|bit| after.control >> bit & 1 == 1);
            bits.for_each(|bit| self.bits.add(bit));
        }
        let emptied = before.first > 0 && before.stored > 0 && after.stored == 0;
        if emptied || before.stored > 0 && after.stored == before.stored {
            if let Some(what) = stores_of(before, call, answer, emptied) {
                self.stores.add(STORES[what]);
            }
        }
        if let Some(what) = writes_of(before, call, answer) {
            self.writes.add(WRITES[what]);
        }
    }

    /// The counts in words, and whether every possible thing occurred.
    pub fn shown(&self) -> (String, bool) {
        shown_together([
            self.answers.shown(),
            self.starts.shown(),
            self.triggers.shown(),
            self.formats.shown(),
            self.events.shown(),
            self.reads.shown(),
            self.stores.shown(),
            self.writes.shown(),
            self.modes.shown(),
            self.bits.shown(),
            self.pulses.shown(),
            self.accesses.shown_least(),
            self.window.shown_least(),
            self.channels.shown_least(),
        ])
    }
}

/// What a call emptied, or left stored.
fn stores_of(before: &Record, call: Call, answer: u32, emptied: bool) -> Option<usize> {
    Some(match (call, answer, emptied) {
        (Call::Write(0x1108, 16, _), 0, true) => 0,
        (Call::Write(0x110A, 16, _), 0, true) => 1,
        (Call::Write(0x110C, 16, _), 0, true) => 2,
        (Call::Write(0x1120, 16, _), 0, true) => 3,
        (Call::ClearLine, 0, true) => 4,
        (Call::Write(0x1122, 16, _), 0, true) => 5,
        (Call::ClearLine, 0, false) => 6,
        (Call::Write(0x1122, 16, _), 0, false) => 7,
        (Call::Write(0x1108, 16, _), 4, _) => 8,
        (Call::Write(0x110A, 16, _), 4, _) => 9,
        (Call::Write(0x1100, 32, data), 6, _) => 10 + usize::from(data == before.enable),
        _ => return None,
    })
}

/// What else a write did.
fn writes_of(before: &Record, call: Call, answer: u32) -> Option<usize> {
    let counted = before.counts != [0; CHANNELS];
    Some(match (call, answer) {
        (Call::Write(0x1108, 16, data), 0) if data & 0xFF == before.control && counted => 0,
        (Call::Write(0x1108, 16, _), 4) => 1,
        (Call::Write(0x110A, 16, data), 4) if data & 3 != 3 => 2,
        (Call::Write(0x1100, 32, data), 0) if data != before.enable => 3,
        (Call::Write(0x1120, 16, _), 0) if before.veto => 4,
        (Call::Write(0x1120, 16, _), 0) if before.enable != u32::MAX => 5,
        _ => return None,
    })
}
