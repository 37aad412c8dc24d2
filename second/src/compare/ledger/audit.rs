//! A ledger of each V830 run, kept on its own: from the calls made, and from the answers, values,
//! columns and memory line that the program under test printed. It knows neither module.
//!
//! A stretch begins with a Control-group write that was answered 0 and left mode random and AUTO
//! RESET set: counters, Trigger Counter and memory then begin from nothing. What ends it:
//! - another Control-group write that was answered 0, or Software Reset: both empty the memory and
//!   zero the Trigger Counter, so that nothing behind them belongs to the events before;
//! - CLEAR, by line or by register: it throws counts away on purpose, so that pulses admitted and
//!   counts taken no longer balance (and with bit 6 it throws words away too);
//! - the end of the run.
//!
//! VETO, TEST, reads, refused calls and Channel Enable writes do not end it.
//!
//! Of each stretch it asks:
//! (a) the words handed out are those of the accepted triggers, in order, each once; and at the end
//!     of the run those still stored are the rest of them, no more and no less;
//! (b) for each channel that was enabled throughout, its counts in those events and its live count
//!     make up the pulses admitted to it, modulo 2^32, in short format modulo 2^26.
//!
//! And of each run: (c) a trigger that was not answered 0 was answered 7, 8, 9, 10 or 12, for the
//! reason that the number names, and changed nothing that is printed.

use crate::compare::ledger::printed::{Line, Printed};
use crate::model::block::{read_event, Settings, CHANNELS};
use crate::model::module::Call;

/// What was checked of some runs.
#[derive(Clone, Copy, Debug, Default, PartialEq, Eq)]
pub struct Checked {
    pub stretches: usize,
    pub events: usize,
    pub words: usize,
    /// The balances of a channel over a stretch.
    pub balances: usize,
    /// The triggers that were answered other than 0.
    pub neglected: usize,
    /// The events of a trigger number of 65,536 or more, and the short counts of 2^26 or more.
    pub past_16_bits: usize,
    pub past_26_bits: usize,
}

/// One stretch.
struct Stretch {
    settings: Settings,
    /// The channels enabled throughout.
    always: u32,
    /// The pulses admitted to each channel, since the last accepted trigger and since the beginning.
    since: [u32; CHANNELS],
    admitted: [u32; CHANNELS],
    /// The settings of each event, and the words of all of them.
    events: Vec<Settings>,
    words: Vec<u32>,
    handed_out: Vec<u32>,
}

/// The books of one run.
struct Ledger {
    geo: u32,
    control: u32,
    enable: u32,
    veto: bool,
    stretch: Option<Stretch>,
    checked: Checked,
}

/// Goes through a run of a V830 with this GEO; what was checked, or the first complaint.
pub fn audit(geo: u32, calls: &[Call], printed: &Printed) -> Result<Checked, String> {
    if printed.lines.len() != calls.len() + 1 {
        return Err(format!("{} lines are printed", printed.lines.len()));
    }
    let mut ledger = Ledger {
        geo,
        control: 0,
        enable: u32::MAX,
        veto: false,
        stretch: None,
        checked: Checked::default(),
    };
    for (entry, call) in calls.iter().enumerate() {
        let (before, after) = (&printed.lines[entry], &printed.lines[entry + 1]);
        let outcome = ledger.enter(*call, before, after);
        outcome.map_err(|words| format!("at entry {}: {}", entry + 1, words))?;
    }
    let last = &printed.lines[calls.len()];
    let stored = printed.stored_words()?;
    ledger.close(last, Some(&stored))?;
    Ok(ledger.checked)
}

/// Complains unless a thing is so.
fn ask(so: bool, words: impl FnOnce() -> String) -> Result<(), String> {
    match so {
        true => Ok(()),
        false => Err(words()),
    }
}

impl Ledger {
    /// Enters one call, with the lines printed before and behind it.
    fn enter(&mut self, call: Call, before: &Line, after: &Line) -> Result<(), String> {
        let done = after.answer() == 0;
        match call {
            Call::Trigger => self.trigger(1, before, after)?,
            Call::Write(0x1124, 16, _) => self.trigger(0, before, after)?,
            Call::Read(0..=0x0FFC, 32) if done || after.answer() == 5 => self.read_word(after)?,
            Call::Pulses(channel, pulses) if done && !self.veto => {
                self.admit(channel as usize, pulses);
            }
            Call::Test if done => (0..CHANNELS).for_each(|channel| self.admit(channel, 1)),
            Call::VetoLine(on) if done => self.veto = on,
            Call::ClearLine | Call::Write(0x1122, 16, _) if done => self.close(before, None)?,
            Call::Write(0x1120, 16, _) if done => {
                self.close(before, None)?;
                self.control = 0;
                self.enable = u32::MAX;
            }
            Call::Write(0x1108, 16, data) if done => self.set_control(data, before)?,
            Call::Write(0x110A, 16, data) if done => {
                self.set_control(self.control | data, before)?;
            }
            Call::Write(0x110C, 16, data) if done => {
                self.set_control(self.control & !data, before)?;
            }
            Call::Write(0x1100, 32, data) if done => self.set_enable(data),
            _ => {}
        }
        self.settings_are_printed(after)
    }

    /// The layout that Control and Channel Enable now give.
    fn settings(&self) -> Settings {
        Settings {
            header: self.control & 0x20 != 0,
            short: self.control & 0x04 != 0,
            enable: self.enable,
        }
    }

    /// Admits pulses to a channel.
    fn admit(&mut self, channel: usize, pulses: u32) {
        if let Some(stretch) = &mut self.stretch {
            for counts in [&mut stretch.since, &mut stretch.admitted] {
                counts[channel] = counts[channel].wrapping_add(pulses);
            }
        }
    }

    /// A Control-group write that was answered 0.
    fn set_control(&mut self, result: u32, before: &Line) -> Result<(), String> {
        self.close(before, None)?;
        self.control = result & 0xFF;
        if self.control & 0x83 == 0x81 {
            self.stretch = Some(Stretch {
                settings: self.settings(),
                always: self.enable,
                since: [0; CHANNELS],
                admitted: [0; CHANNELS],
                events: Vec::new(),
                words: Vec::new(),
                handed_out: Vec::new(),
            });
        }
        Ok(())
    }

    /// A Channel Enable write that was answered 0.
    fn set_enable(&mut self, data: u32) {
        self.enable = data;
        if let Some(stretch) = &mut self.stretch {
            stretch.settings.enable = data;
            stretch.always &= data;
        }
    }

    /// A trigger of this source code.
    fn trigger(&mut self, source: u32, before: &Line, after: &Line) -> Result<(), String> {
        if after.answer() != 0 {
            self.checked.neglected += 1;
            return self.neglected(before, after);
        }
        if let Some(stretch) = &mut self.stretch {
            let number = stretch.events.len() as u32 + 1;
            let header = self.geo << 27 | 1 << 26 | source << 16 | number & 0xFFFF;
            self.checked.past_16_bits += usize::from(number > 0xFFFF);
            self.checked.past_26_bits += stretch.take(header);
        }
        Ok(())
    }

    /// (c) of a trigger that was not answered 0.
    fn neglected(&self, before: &Line, after: &Line) -> Result<(), String> {
        let length = self.settings().length() as u32;
        let reason = match after.answer() {
            7 => self.control & 3 != 1,
            8 => length == 0,
            9 => before.stored() + length > before.capacity(),
            10 => false,
            12 => before.capacity() == 0,
            _ => false,
        };
        ask(reason && after.value() == 0, || {
            format!("a trigger is answered {} for no reason", after.answer())
        })?;
        ask(before.columns() == after.columns(), || {
            "a neglected trigger changes something".to_string()
        })
    }

    /// A memory read that was answered 0 or 5.
    fn read_word(&mut self, after: &Line) -> Result<(), String> {
        let stretch = match &mut self.stretch {
            None => return Ok(()),
            Some(stretch) => stretch,
        };
        let due = stretch.words.get(stretch.handed_out.len()).copied();
        let given = Some(after.value()).filter(|_| after.answer() == 0);
        ask(given == due, || {
            format!("the read gives {:?} where {:?} is due", given, due)
        })?;
        stretch.handed_out.extend(given);
        Ok(())
    }

    /// Control, Channel Enable and VETO as the ledger has them; of a stretch the triggers too.
    fn settings_are_printed(&self, line: &Line) -> Result<(), String> {
        let held = (self.control, self.enable, u32::from(self.veto));
        let printed = (line.control(), line.enable(), line.veto());
        ask(held == printed, || {
            format!(
                "control, enable and veto are printed as {:?} and were set to {:?}",
                printed, held
            )
        })?;
        let events = self.stretch.as_ref().map(|stretch| stretch.events.len());
        ask(
            events.map_or(true, |events| events as u32 == line.triggers()),
            || {
                format!(
                    "the Trigger Counter is {} after {:?}",
                    line.triggers(),
                    events
                )
            },
        )
    }

    /// Ends the stretch, if there is one: behind this line, with these words stored if they are known.
    fn close(&mut self, last: &Line, stored: Option<&[u32]>) -> Result<(), String> {
        let stretch = match self.stretch.take() {
            None => return Ok(()),
            Some(stretch) => stretch,
        };
        let seen = stretch.seen(last, stored)?;
        stretch.balance(last, &seen)?;
        self.checked.stretches += 1;
        self.checked.events += stretch.events.len();
        self.checked.words += seen.len();
        self.checked.balances += stretch.always.count_ones() as usize;
        Ok(())
    }
}

impl Stretch {
    /// Takes an event of this header, its channel count aside; how many counts are too large for it.
    fn take(&mut self, header: u32) -> usize {
        let enable = self.settings.enable;
        let mut too_large = 0;
        if self.settings.header {
            self.words.push(header | enable.count_ones() << 18);
        }
        for channel in (0..CHANNELS).filter(|channel| enable >> channel & 1 == 1) {
            let count = self.since[channel];
            let datum = match self.settings.short {
                true => (channel as u32) << 27 | (count & 0x03FF_FFFF),
                false => count,
            };
            too_large += usize::from(self.settings.short && count >= 1 << 26);
            self.words.push(datum);
        }
        self.events.push(self.settings);
        self.since = [0; CHANNELS];
        too_large
    }

    /// (a): the words handed out and, where they are known, those stored behind them.
    fn seen(&self, last: &Line, stored: Option<&[u32]>) -> Result<Vec<u32>, String> {
        let left = self.words.len() - self.handed_out.len();
        ask(last.stored() as usize == left, || {
            format!("{} words are stored where {} are due", last.stored(), left)
        })?;
        let seen = [&self.handed_out, stored.unwrap_or(&[])].concat();
        ask(self.words.starts_with(&seen), || {
            "the words stored are not those of the accepted triggers".to_string()
        })?;
        ask(stored.is_none() || seen.len() == self.words.len(), || {
            "words of accepted triggers are lost".to_string()
        })?;
        Ok(seen)
    }

    /// (b): words that nobody saw are taken from the books.
    fn balance(&self, last: &Line, seen: &[u32]) -> Result<(), String> {
        let all = [seen, &self.words[seen.len()..]].concat();
        let mut rest = &all[..];
        let mut sums = last.counts();
        for settings in &self.events {
            let read = read_event(settings, rest);
            ask(read.answer == 0, || {
                format!("an event reads {}", read.answer)
            })?;
            for (sum, count) in sums.iter_mut().zip(read.event.counts) {
                *sum = sum.wrapping_add(count);
            }
            rest = &rest[read.length..];
        }
        let bits = if self.settings.short { 26 } else { 32 };
        for channel in (0..CHANNELS).filter(|channel| self.always >> channel & 1 == 1) {
            let off = sums[channel].wrapping_sub(self.admitted[channel]);
            ask(u64::from(off) % (1 << bits) == 0, || {
                format!(
                    "{} pulses were admitted to channel {}; its counts make up {}",
                    self.admitted[channel], channel, sums[channel]
                )
            })?;
        }
        Ok(())
    }
}
