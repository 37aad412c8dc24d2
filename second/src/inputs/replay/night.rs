//! `second night`: a log of many mixed entries for measuring how fast a replay is.

use crate::inputs::rng::Rng;
use crate::inputs::trace::scripts_v830::{
    set_up, BAD_OFFSETS_830, BIT_SET, CONTROL, ENABLE, NUMBER, TRIGGERS,
};
use crate::model::block::CHANNELS;
use crate::model::module::Call::{self, *};
use std::io::{self, Write as Output};

/// Channel Enable and Control at the beginning: four channels; random trigger, header, AUTO RESET.
const FIRST_ENABLE: u32 = 0x8001_0101;
const FIRST_CONTROL: u32 = 0xA1;

/// VETO is lifted after at most so many entries.
const LONGEST_VETO: usize = 16;

/// A way of making the next entry.
type Maker = fn(&mut Rng) -> Call;

/// The makers, each with its share of a thousand turns; VETO lifted again makes up the thousand.
const MAKERS: [(usize, Maker); 15] = [
    (400, |rng| {
        Pulses(any_channel(rng), rng.between(1, 8) as u32)
    }),
    (80, |_| Trigger),
    (370, |rng| Read(4 * rng.below(1_024) as u32, 32)),
    (40, |rng| Read(0x1000 + 4 * any_channel(rng), 32)),
    (15, |_| TRIGGERS),
    (15, |_| NUMBER),
    (12, |_| Read(ENABLE, 32)),
    (12, |_| Read(CONTROL, 16)),
    (1, |_| Write(BIT_SET, 16, 0)),
    (5, |rng| Write(ENABLE, 32, four_channels(rng))),
    (8, |rng| VetoLine(rng.one_in(4))),
    (10, |_| Test),
    (2, |_| ClearLine),
    (3, |_| ManClr),
    (25, refused_access),
];

/// A channel.
fn any_channel(rng: &mut Rng) -> u32 {
    rng.below(CHANNELS) as u32
}

/// A Channel Enable of four channels.
fn four_channels(rng: &mut Rng) -> u32 {
    let mut enable = 0u32;
    while enable.count_ones() < 4 {
        enable |= 1 << rng.below(CHANNELS);
    }
    enable
}

/// An access of a wrong offset, a wrong width or a wrong direction.
fn refused_access(rng: &mut Rng) -> Call {
    match rng.below(3) {
        0 => Read(rng.pick(&BAD_OFFSETS_830), rng.pick(&[16, 32])),
        1 => rng.pick(&[
            Read(0x0000, 16),
            Read(0x1000, 16),
            Read(ENABLE, 16),
            Read(CONTROL, 32),
            Write(CONTROL, 32, 0xA1),
            Write(0x1124, 32, 1),
        ]),
        _ => rng.pick(&[
            Write(0x0000, 32, 7),
            Write(0x1004, 32, 9),
            Write(0x1128, 32, u32::MAX),
            Read(BIT_SET, 16),
            Read(0x1120, 16),
            Read(0x1124, 16),
        ]),
    }
}

/// The entries of a night, one behind the other.
struct Night {
    rng: Rng,
    /// How many entries are left to make.
    left: usize,
    first: std::vec::IntoIter<Call>,
    /// After how many entries VETO is lifted, if it is on.
    veto: Option<usize>,
}

impl Night {
    /// So many entries from a seed.
    fn new(entries: usize, seed: u64) -> Night {
        Night {
            rng: Rng::new(seed),
            left: entries,
            first: set_up(FIRST_ENABLE, FIRST_CONTROL).into_iter(),
            veto: None,
        }
    }

    /// The next entry behind the first ones.
    fn mixed(&mut self) -> Call {
        if let Some(0) = self.veto {
            self.veto = None;
            return VetoLine(false);
        }
        let call = self.rng.pick_by_share(&MAKERS)(&mut self.rng);
        self.veto = match (call, self.veto) {
            (VetoLine(true), _) if self.left <= LONGEST_VETO => return VetoLine(false),
            (VetoLine(true), None) => Some(self.rng.below(LONGEST_VETO)),
            (VetoLine(false), _) => None,
            (_, after) => after.map(|entries| entries.saturating_sub(1)),
        };
        call
    }
}

impl Iterator for Night {
    type Item = Call;

    /// The next entry.
    fn next(&mut self) -> Option<Call> {
        self.left = self.left.checked_sub(1)?;
        self.first.next().or_else(|| Some(self.mixed()))
    }
}

/// Writes a night of so many entries.
pub fn write_night(output: &mut dyn Output, entries: usize, seed: u64) -> io::Result<()> {
    let mut output = io::BufWriter::with_capacity(1 << 16, output);
    for call in Night::new(entries, seed) {
        output.write_all(&call.bytes())?;
    }
    output.flush()
}

#[cfg(test)]
mod tests {
    use super::*;
    use crate::listings::replay::own_replay;
    use crate::listings::trace::entries_from;

    /// A night as bytes.
    fn night(entries: usize, seed: u64) -> Vec<u8> {
        let mut bytes = Vec::new();
        write_night(&mut bytes, entries, seed).expect("a Vec takes every byte");
        bytes
    }

    #[test]
    fn nights_have_their_entries_and_no_fault() {
        for entries in [0, 1, 2, 3, 100, 5_000] {
            let log = night(entries, 7);
            let (read, fault) = entries_from(&log, 0);
            assert_eq!((read.len(), fault), (entries, None));
        }
        assert_eq!(night(500, 7), night(500, 7));
        assert_ne!(night(500, 7), night(500, 8));
        let begins = [6, 0x80, 0x22, 32, 0x81, 0x82, 0x84, 0x80, 0x08];
        let begins = [&begins[..], &[6, 0x88, 0x22, 16, 0xA1, 0x01]].concat();
        assert!(night(9, 7).starts_with(&begins));
    }

    /// The calls of a long night, and the log.
    fn long_night() -> (Vec<Call>, Vec<u8>) {
        let log = night(100_000, 7);
        let calls = entries_from(&log, 0).0.iter().map(Call::of).collect();
        (calls, log)
    }

    /// Whether a call reads the memory.
    fn reads_memory(call: &Call) -> bool {
        matches!(call, Read(0..=0xFFC, 32))
    }

    #[test]
    fn a_night_is_mixed_as_it_is_told() {
        let (calls, _) = long_night();
        let of_thousand = |wanted: fn(&Call) -> bool| {
            let count = calls.iter().filter(|call| wanted(call)).count();
            (count + 50) / 100
        };
        assert!((390..=410).contains(&of_thousand(|call| matches!(call, Pulses(..)))));
        assert!((75..=85).contains(&of_thousand(|call| *call == Trigger)));
        assert!((360..=381).contains(&of_thousand(reads_memory)));
        assert!((8..=12).contains(&of_thousand(|call| matches!(call, VetoLine(_)))));
    }

    #[test]
    fn veto_never_stays_on() {
        let (mut on, mut longest, mut all) = (0, 0, 0);
        for call in long_night().0 {
            on = match call {
                VetoLine(false) => 0,
                VetoLine(true) => on.max(1),
                _ => on + usize::from(on > 0),
            };
            longest = longest.max(on);
            all += usize::from(on > 0);
        }
        assert_eq!(on, 0);
        assert!((2..=LONGEST_VETO + 1).contains(&longest), "{}", longest);
        assert!((100..5_000).contains(&all), "{}", all);
    }

    #[test]
    fn triggers_are_accepted_and_most_events_read() {
        let (calls, log) = long_night();
        let listing = own_replay(&log);
        let answered = |wanted: fn(&Call) -> bool, answer: &str| {
            let lines = calls.iter().zip(listing.lines().skip(1));
            let of = lines.filter(|(call, _)| wanted(call));
            of.filter(|(_, line)| line.split(' ').nth(1) == Some(answer))
                .count()
        };
        let triggers = answered(|call| *call == Trigger, "0");
        let neglected = answered(|call| *call == Trigger, "9");
        assert!(triggers > 7_000 && neglected == 0, "{}", triggers);
        let words = answered(reads_memory, "0");
        assert!(words > 4 * triggers, "{} words", words);
    }
}
