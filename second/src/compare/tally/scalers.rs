//! Counts what the runs of a trace gave, so that a comparison that never saw a thing is noticed.

use crate::compare::tally::row::{shown_together, Row};
use crate::inputs::trace::heads::{shape_260, shape_560, SHAPES_260, SHAPES_560};
use crate::listings::own_module::{own_start, Own};
use crate::listings::trace_head::{Head, HeadSwitches};
use crate::model::module::{Call, Module};
use crate::model::registers;
use crate::model::scaler::{Held, Scaler, CHANNELS};
use crate::model::v260::TABLE_260;
use crate::model::v560::TABLE_560;
use std::fmt::{self, Display, Formatter};

/// A watched bit that raised a request, and how.
#[derive(Clone, Copy, Debug, PartialEq, Eq)]
struct Raised(u32, &'static str);

impl Display for Raised {
    /// The bit and how it was raised, in words.
    fn fmt(&self, formatter: &mut Formatter) -> fmt::Result {
        write!(formatter, "bit {} {}", self.0, self.1)
    }
}

const BY_INPUT: &str = "by input";
const BY_TEST: &str = "by TEST";
const IN_JOINED: &str = "in a joined scale";

/// What alone withheld a request, all else being as it must be; the last is the V560's only.
const WITHHELD: [&str; 4] = [
    "generation off",
    "not enabled",
    "level 0",
    "low part of a joined section",
];

/// By what pulses and TEST were inhibited.
const INHIBITED: [&str; 6] = [
    "input by line",
    "input by VME",
    "input by both",
    "TEST by line",
    "TEST by VME",
    "TEST by both",
];

/// Every way in which these watched bits raise a request.
fn every_raised(bits: &[u32]) -> Vec<Raised> {
    let ways = [BY_INPUT, BY_TEST, IN_JOINED];
    bits.iter()
        .flat_map(|bit| ways.map(|how| Raised(*bit, how)))
        .collect()
}

/// What the runs of one module gave.
pub struct ModuleTally {
    answers: Row<u32>,
    starts: Row<u32>,
    carries: Row<usize>,
    requests: Row<Raised>,
    withheld: Row<&'static str>,
    inhibited: Row<&'static str>,
    joins: Row<&'static str>,
    accesses: Row<Access>,
    channels: Row<u32>,
}

/// An access: the offset, the width, and whether it is a write.
#[derive(Clone, Copy, Debug, PartialEq, Eq)]
pub struct Access(u32, u32, bool);

impl Display for Access {
    /// The access in words.
    fn fmt(&self, formatter: &mut Formatter) -> fmt::Result {
        let Access(offset, width, write) = self;
        let way = if *write { "write" } else { "read" };
        write!(formatter, "{} of {} bits at %{:02X}", way, width, offset)
    }
}

/// Every access to these registers, of either width and direction.
pub fn all_accesses(table: &[&[registers::Row]]) -> Vec<Access> {
    let ways = [(16, false), (32, false), (16, true), (32, true)];
    let rows = table.iter().copied().flatten();
    rows.flat_map(|row| ways.map(|(width, write)| Access(row.offset, width, write)))
        .collect()
}

/// The access that a call is, if it is one.
pub fn access_of(call: Call) -> Option<Access> {
    match call {
        Call::Read(offset, width) => Some(Access(offset, width, false)),
        Call::Write(offset, width, _) => Some(Access(offset, width, true)),
        _ => None,
    }
}

impl ModuleTally {
    /// Nothing of a V260 seen yet.
    pub fn of_260() -> ModuleTally {
        ModuleTally {
            answers: Row::new("V260 answers", [0, 1, 2, 3, 4, 11, 12]),
            starts: Row::new("V260 starts", [0, 12]),
            carries: Row::new("V260 carries deep", 0..=15),
            requests: Row::new("V260 requests", every_raised(&[23, 15])),
            withheld: Row::new("V260 withheld by", WITHHELD.into_iter().take(3)),
            inhibited: Row::new("V260 inhibited", INHIBITED),
            joins: Row::new("V260 joined", SHAPES_260),
            accesses: Row::new("V260 accesses", all_accesses(&TABLE_260)),
            channels: Row::new("V260 pulsed 0..31", 0..=31),
        }
    }

    /// Nothing of a V560 seen yet; no log makes its record malformed.
    pub fn of_560() -> ModuleTally {
        ModuleTally {
            answers: Row::new("V560 answers", [0, 1, 2, 3, 4, 11]),
            starts: Row::new("V560 starts", [0]),
            carries: Row::new("V560 carries deep", 0..=1),
            requests: Row::new("V560 requests", every_raised(&[31])),
            withheld: Row::new("V560 withheld by", WITHHELD),
            inhibited: Row::new("V560 inhibited", INHIBITED),
            joins: Row::new("V560 joined", SHAPES_560),
            accesses: Row::new("V560 accesses", all_accesses(&TABLE_560)),
            channels: Row::new("V560 pulsed 0..31", 0..=31),
        }
    }

    /// Counts a start and the calls behind it.
    pub fn add_run(&mut self, head: &Head, calls: impl Iterator<Item = Call>) {
        match head.switches {
            HeadSwitches::V260([joined, ..]) => self.joins.add(shape_260(joined)),
            HeadSwitches::V560([joined]) => self.joins.add(shape_560(joined)),
            HeadSwitches::V830(_) => {}
        }
        let (given, module) = own_start(head);
        self.starts.add(given.answer);
        if let Own::Scaler(mut module) = module {
            calls.for_each(|call| self.add(&mut module, call));
        }
    }

    /// Counts one call and does it.
    fn add(&mut self, module: &mut Box<dyn Scaler>, call: Call) {
        let before = *module.held();
        let answer = match call {
            Call::Pulses(channel, how_many) => {
                self.channels.add(channel);
                self.add_pulses(module, channel, how_many)
            }
            other => module.call(other).answer,
        };
        self.answers.add(answer);
        if let Some(access) = access_of(call) {
            self.accesses.add(access);
        }
        let increase = matches!(call, Call::Read(0x56, _) | Call::Write(0x56, _, _));
        if answer == 0 && (call == Call::Test || increase) {
            self.add_inhibited(&before, 3);
            self.add_asserted(module.as_ref(), &before, BY_TEST);
        }
    }

    /// Gives pulses one at a time, which is the same, and counts what each does.
    fn add_pulses(&mut self, module: &mut Box<dyn Scaler>, channel: u32, how_many: u32) -> u32 {
        let answer = module.call(Call::Pulses(channel, 0)).answer;
        if answer != 0 {
            return answer;
        }
        for _ in 0..how_many {
            let before = *module.held();
            module.call(Call::Pulses(channel, 1));
            let after = module.held();
            let moved = (0..CHANNELS).filter(|at| before.counts[*at] != after.counts[*at]);
            if let Some(depth) = moved.count().checked_sub(1) {
                self.carries.add(depth);
            }
            self.add_inhibited(&before, 0);
            self.add_asserted(module.as_ref(), &before, BY_INPUT);
        }
        answer
    }

    /// Counts what inhibits an input (from 0) or TEST (from 3).
    fn add_inhibited(&mut self, before: &Held, from: usize) {
        let by = usize::from(before.line) + 2 * usize::from(before.vme);
        if by > 0 {
            self.inhibited.add(INHIBITED[from + by - 1]);
        }
    }

    /// Counts the watched bits that went from 0 to 1, and what then became of a request, if it shows.
    fn add_asserted(&mut self, module: &dyn Scaler, before: &Held, how: &'static str) {
        if before.interrupter.requested {
            return;
        }
        for channel in 0..CHANNELS {
            let bits = module.held().counts[channel] & !before.counts[channel];
            let off = [
                !before.interrupter.enabled,
                !module.may_request(channel),
                before.interrupter.level == 0,
            ];
            let bit = module.watched_bit(channel);
            match off.iter().filter(|off| **off).count() {
                _ if bits >> bit.unwrap_or(31) & 1 == 0 => {}
                0 => self.add_request(module, channel, how),
                1 if bit.is_some() => {
                    let alone = off.iter().position(|off| *off).expect("one is off");
                    self.withheld.add(WITHHELD[alone]);
                }
                _ => {}
            }
        }
    }

    /// Counts a request, or one withheld since the channel's bit is not watched.
    fn add_request(&mut self, module: &dyn Scaler, channel: usize, how: &'static str) {
        let bit = match module.watched_bit(channel) {
            None => return self.withheld.add(WITHHELD[3]),
            Some(bit) => bit,
        };
        self.requests.add(Raised(bit, how));
        if module.is_joined(channel) || module.clocks(channel).is_some() {
            self.requests.add(Raised(bit, IN_JOINED));
        }
    }

    /// The counts in words, and whether every possible thing occurred.
    pub fn shown(&self) -> (String, bool) {
        shown_together([
            self.answers.shown(),
            self.starts.shown(),
            self.carries.shown(),
            self.requests.shown(),
            self.withheld.shown(),
            self.inhibited.shown(),
            self.joins.shown(),
            self.accesses.shown_least(),
            self.channels.shown_least(),
        ])
    }
}
