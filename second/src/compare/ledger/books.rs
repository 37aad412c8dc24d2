//! The ledger's books of a whole comparison: every V830 run is entered as it is printed.

use crate::compare::difference::Verdict;
use crate::compare::ledger::audit::{audit, Checked};
use crate::compare::ledger::printed::Printed;
use crate::inputs::input::hex;
use crate::listings::trace::entries_from;
use crate::listings::trace_head::{read_head, HeadSwitches};
use crate::model::module::Call;
use std::sync::Mutex;

/// What was checked, and the first complaint.
#[derive(Default)]
pub struct Books {
    kept: Mutex<(Checked, Option<String>)>,
}

/// What the ledger checks of a listing, or its complaint; nothing of an input of no V830.
pub fn audit_listing(input: &[u8], listing: &[u8]) -> Result<Checked, String> {
    let (geo, place) = match read_head(input) {
        Ok((head, place)) => match head.switches {
            HeadSwitches::V830([geo, _]) => (geo, place),
            _ => return Ok(Checked::default()),
        },
        Err(_) => return Ok(Checked::default()),
    };
    let (entries, _) = entries_from(input, place);
    let calls: Vec<Call> = entries.iter().map(Call::of).collect();
    let printed = Printed::read(listing).ok_or("the listing cannot be read")?;
    audit(geo, &calls, &printed)
}

impl Books {
    /// Enters what a program printed of an input.
    pub fn enter(&self, input: &[u8], listing: &[u8]) {
        let outcome = audit_listing(input, listing);
        let mut kept = self.kept.lock().expect("no panic");
        match outcome {
            Ok(checked) => kept.0.add(&checked),
            Err(words) if kept.1.is_none() => {
                kept.1 = Some(format!("{}\nin {}\n", words, hex(input)));
            }
            Err(_) => {}
        }
    }

    /// The verdict with the ledger's own behind it: a complaint, or nothing to check, is no agreement.
    pub fn judge(self, verdict: Verdict) -> Verdict {
        if !verdict.agreed {
            return verdict;
        }
        let (checked, complaint) = self.kept.into_inner().expect("no panic");
        let outcome = match complaint {
            Some(words) => Err(format!("the ledger complains: {}", words)),
            None if !checked.everything() => {
                Err(checked.shown() + "the ledger had not everything to check\n")
            }
            None => Ok(checked.shown()),
        };
        Verdict::new(verdict.words, outcome)
    }
}

impl Checked {
    /// Each count and its name.
    fn rows(&self) -> [(usize, &'static str); 7] {
        [
            (self.stretches, "stretches"),
            (self.events, "events"),
            (self.words, "words"),
            (self.balances, "balances of a channel"),
            (self.neglected, "neglected triggers"),
            (self.past_16_bits, "trigger numbers past 65,535"),
            (self.past_26_bits, "short counts past 2^26 - 1"),
        ]
    }

    /// Adds what another run gave.
    fn add(&mut self, other: &Checked) {
        self.stretches += other.stretches;
        self.events += other.events;
        self.words += other.words;
        self.balances += other.balances;
        self.neglected += other.neglected;
        self.past_16_bits += other.past_16_bits;
        self.past_26_bits += other.past_26_bits;
    }

    /// Whether there was something of everything.
    fn everything(&self) -> bool {
        self.rows().iter().all(|(count, _)| *count > 0)
    }

    /// The counts in words.
    fn shown(&self) -> String {
        let rows = self
            .rows()
            .map(|(count, name)| format!("{} {}", count, name));
        format!("the ledger checked {}\n", rows.join(", "))
    }
}

#[cfg(test)]
mod tests {
    use super::*;
    use crate::inputs::trace::scripts_v830::{set_up, CLEAR, MEMORY, SOFTWARE_TRIGGER};
    use crate::listings::trace::own_trace;
    use crate::listings::trace_head::{input_of, v830};
    use crate::model::module::Call::*;

    /// A run of two stretches: three events of which two words are read, then one event.
    fn run() -> Vec<u8> {
        let mut calls = set_up(2, 0xA1);
        calls.extend([Pulses(1, 5), Trigger, Pulses(1, 6), SOFTWARE_TRIGGER]);
        calls.extend([MEMORY, MEMORY, Trigger, Pulses(1, 1), CLEAR, Pulses(1, 2)]);
        calls.extend([Write(0x110A, 16, 0x04), Test, Pulses(0, 9), Trigger]);
        calls.extend([Trigger, Trigger, Trigger, Pulses(1, 3)]);
        input_of(&v830(1, 7, 0), &calls, &[0x80])
    }

    /// The complaint about a listing of that run in which one text is exchanged.
    fn complaint(from: &str, to: &str) -> String {
        let listing = own_trace(&run());
        assert!(listing.contains(from), "{}", listing);
        let changed = listing.replacen(from, to, 1);
        audit_listing(&run(), changed.as_bytes()).expect_err("a complaint")
    }

    #[test]
    fn what_a_run_gives() {
        let expected = Checked {
            stretches: 2,
            events: 3 + 3,
            words: 2 + 6,
            balances: 2,
            neglected: 1,
            past_16_bits: 0,
            past_26_bits: 0,
        };
        let listing = own_trace(&run());
        assert_eq!(audit_listing(&run(), listing.as_bytes()), Ok(expected));
    }

    #[test]
    fn complaints() {
        // The header 0C050001 is 201654273; the first event's count is 5.
        let told = complaint("\n7 0 201654273 ", "\n7 0 201654274 ");
        assert!(told.contains("entry 7: the read gives"), "{}", told);
        let told = complaint("\n8 0 5 ", "\n8 5 0 ");
        assert!(told.contains("entry 8: the read gives None"), "{}", told);
        let told = complaint("\n19 9 0 ", "\n19 7 0 ");
        assert!(told.contains("for no reason"), "{}", told);
        // In the last line the live count of channel 1 is 3; in the memory the last event's is 0.
        let told = complaint("0 7 0 6 0 3 ", "0 7 0 6 0 4 ");
        assert!(
            told.contains("pulses were admitted to channel 1"),
            "{}",
            told
        );
        let told = complaint("memory 201654273 ", "memory 201654275 ");
        assert!(told.contains("are not those of the accepted"), "{}", told);
        let told = complaint("memory", "words");
        assert!(told.contains("cannot be read"), "{}", told);
    }

    #[test]
    fn a_complaint_or_nothing_to_check_is_no_agreement() {
        let agreed = || Verdict::new("before\n".to_string(), Ok("all agree\n".to_string()));
        let verdict = Books::default().judge(agreed());
        assert!(!verdict.agreed);
        assert!(verdict.words.contains("not everything to check"));
        let books = Books::default();
        let changed = own_trace(&run()).replace("\n8 0 5 ", "\n8 0 6 ");
        books.enter(&run(), changed.as_bytes());
        let verdict = books.judge(agreed());
        assert!(!verdict.agreed);
        assert!(verdict
            .words
            .starts_with("before\nall agree\nthe ledger complains: at entry 8"));
        let failed = Verdict::new(String::new(), Err("MISMATCH\n".to_string()));
        assert_eq!(Books::default().judge(failed).words, "MISMATCH\n");
    }
}
