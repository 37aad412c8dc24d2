//! `compare entries`: whole logs, short and long, each in a run of COMMAND of its own.

use crate::compare::difference::Verdict;
use crate::compare::failing::Finding;
use crate::compare::run::Program;
use crate::compare::runs::first_failing_input;
use crate::inputs::input::{hex, Input};
use crate::inputs::logs::whole::{make_plain_logs, LONGEST_ENTRY};
use crate::listings::end::End;
use crate::listings::logs::{list_entries, OWN_READER};
use crate::model::log::read_entry;

/// Compares COMMAND's `entries` listing of every log with this program's own.
pub fn compare_entries(program: &Program, seed: u64) -> Verdict {
    let outcome = compare_all(program, &make_plain_logs(seed));
    Verdict::new(format!("seed {}\n", seed), outcome)
}

/// Goes through the logs; the words of the first failure, or those of agreement.
fn compare_all(program: &Program, logs: &[Input]) -> Result<String, String> {
    let list = |bytes: &[u8]| list_entries(bytes, End::Whole, &OWN_READER);
    if let Some((log, finding)) = first_failing_input(program, logs, &list) {
        let finding = finding.about_title();
        return Err(finding.shown(&log.shown()) + &shown_entry(&log.bytes, &finding));
    }
    let bytes: usize = logs.iter().map(|log| log.bytes.len()).sum();
    Ok(format!(
        "logs agree: {} logs, {} bytes\n",
        logs.len(),
        bytes
    ))
}

/// The bytes of the entry that a differing line is about, in words.
fn shown_entry(bytes: &[u8], finding: &Finding) -> String {
    let line = match finding {
        Finding::Fails(_) => return String::new(),
        Finding::Differs(found) => found.line,
    };
    let place = (1..line).fold(0, |place, _| read_entry(bytes, place).place);
    let rest = &bytes[place..];
    let some = &rest[..rest.len().min(LONGEST_ENTRY.len())];
    format!("from its place {} on: {}\n", place, hex(some))
}
