//! Finds what is wrong with a program's listing of an input, and the first of many cases of
//! `logcases` on which it differs from this program's.

use crate::compare::difference::{first_difference, shown_listing, Difference};
use crate::compare::run::{Program, Trouble};
use crate::inputs::logs::case::{Batch, Case};

/// How much longer than expected a listing may be and still be read whole.
const SPARE: usize = 4_096;

/// What is wrong with a case or an input.
#[derive(Clone, Debug)]
pub enum Finding {
    /// The listings differ; the line counts from 0, within the case if it is one.
    Differs(Difference),
    /// The program gives no such listing.
    Fails(String),
}

/// A case that fails, by its number among those given.
#[derive(Debug)]
pub struct Failing {
    pub index: usize,
    pub finding: Finding,
    /// Whether it fails by itself too, without the cases before it.
    pub alone: bool,
}

/// The first failing case, if any; words if the program is hopeless.
pub fn first_failing(program: &Program, cases: &[Case]) -> Result<Option<Failing>, String> {
    let batch = Batch::new(cases);
    let own = batch.listing.as_bytes();
    match program(&batch.input, own.len() + SPARE) {
        Err(Trouble::Hopeless(words)) => Err(words),
        Err(Trouble::Died(words)) => first_dying(program, cases, words).map(Some),
        Ok(theirs) => match first_difference(own, &theirs) {
            None => Ok(None),
            Some(found) if found.line == 0 => Err(garbage(&found)),
            Some(found) => confirmed(program, cases, &batch, found).map(Some),
        },
    }
}

/// Compares the whole listing of one input, in a run of its own.
pub fn compare_input(program: &Program, input: &[u8], own: &str) -> Result<(), Finding> {
    let own = own.as_bytes();
    match program(input, own.len() + SPARE) {
        Err(Trouble::Hopeless(words)) | Err(Trouble::Died(words)) => Err(Finding::Fails(words)),
        Ok(theirs) => match first_difference(own, &theirs) {
            None => Ok(()),
            Some(found) => Err(Finding::Differs(found)),
        },
    }
}

/// Both listings of one input.
pub fn both_listings(program: &Program, input: &[u8], own: &str) -> String {
    let theirs = match program(input, 2 * own.len() + SPARE) {
        Ok(theirs) => shown_listing(&theirs),
        Err(Trouble::Hopeless(words)) | Err(Trouble::Died(words)) => format!("    {}\n", words),
    };
    format!(
        "  own listing:\n{}  COMMAND's listing:\n{}",
        shown_listing(own.as_bytes()),
        theirs
    )
}

/// The words for a program that does not print this listing at all.
fn garbage(found: &Difference) -> String {
    format!(
        "COMMAND prints garbage: its first line is not the one of docs/FORMATS.md\n{}",
        found.shown().trim_end()
    )
}

/// The case to blame for a differing line, tried by itself; one line too many blames the case before.
fn confirmed(
    program: &Program,
    cases: &[Case],
    batch: &Batch,
    mut found: Difference,
) -> Result<Failing, String> {
    let index = batch.case_of(found.line);
    found.line -= batch.first_line(index);
    let finding = Finding::Differs(found);
    if cases.len() > 1 {
        for suspect in (index.saturating_sub(1)..=index).rev() {
            if let Some(failing) = first_failing(program, &cases[suspect..=suspect])? {
                return Ok(Failing {
                    index: suspect,
                    ..failing
                });
            }
        }
    }
    Ok(Failing {
        index,
        finding,
        alone: cases.len() == 1,
    })
}

/// The case to blame for a death, found by halving.
fn first_dying(program: &Program, cases: &[Case], words: String) -> Result<Failing, String> {
    let finding = Finding::Fails(words);
    if cases.len() > 1 {
        let (left, right) = cases.split_at(cases.len() / 2);
        for (half, skipped) in [(left, 0), (right, left.len())] {
            if let Some(failing) = first_failing(program, half)? {
                return Ok(Failing {
                    index: failing.index + skipped,
                    ..failing
                });
            }
        }
    }
    Ok(Failing {
        index: 0,
        finding,
        alone: cases.len() == 1,
    })
}

impl Finding {
    /// The finding about a listing that always has its title: a differing first line is garbage.
    pub fn about_title(self) -> Finding {
        match self {
            Finding::Differs(found) if found.line == 0 => Finding::Fails(garbage(&found)),
            other => other,
        }
    }

    /// What is wrong with `what`, in words.
    pub fn shown(&self, what: &str) -> String {
        match self {
            Finding::Fails(words) => format!("FAILURE in {}\n{}\n", what, words),
            Finding::Differs(found) => format!(
                "MISMATCH in {}\nthe listings differ in its line {}:\n{}",
                what,
                found.line + 1,
                found.shown()
            ),
        }
    }
}
