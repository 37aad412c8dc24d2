//! Compares many inputs, each in a run of COMMAND of its own, two runs at a time.

use crate::compare::difference::Verdict;
use crate::compare::failing::{both_listings, compare_input, Finding};
use crate::compare::run::Program;
use crate::compare::shrink::{shrink_input, smaller_inputs, Smaller};
use crate::inputs::input::{hex, Input};
use std::sync::atomic::{AtomicUsize, Ordering};
use std::sync::Mutex;
use std::thread;
use std::time::{Duration, Instant};

/// So many runs go on at the same time.
const RUNS_AT_A_TIME: usize = 2;
/// So many runs, and so much time, are spent to make a failing input smaller.
const SHRINKING_RUNS: usize = 300;
const SHRINKING_TIME: Duration = Duration::from_secs(20);
/// Longer inputs are not made smaller by few runs.
const LONGEST_SHRUNK: usize = 2_000;

/// This program's own listing of an input.
pub type Lister<'a> = dyn Fn(&[u8]) -> String + Sync + 'a;

/// The first input whose listing differs from this program's own, if any.
pub fn first_failing_input<'a>(
    program: &Program,
    inputs: &'a [Input],
    list: &Lister,
) -> Option<(&'a Input, Finding)> {
    let next = AtomicUsize::new(0);
    let first = Mutex::new(None);
    let work = || loop {
        let index = next.fetch_add(1, Ordering::SeqCst);
        let bytes = match inputs.get(index) {
            None => return,
            Some(input) => &input.bytes,
        };
        if let Err(finding) = compare_input(program, bytes, &list(bytes)) {
            next.fetch_max(inputs.len(), Ordering::SeqCst);
            keep_first(&mut first.lock().expect("no panic"), index, finding);
        }
    };
    thread::scope(|scope| {
        for _ in 0..RUNS_AT_A_TIME {
            scope.spawn(work);
        }
    });
    let first = first.into_inner().expect("no panic");
    first.map(|(index, finding)| (&inputs[index], finding))
}

/// Keeps the finding of the lower index.
fn keep_first(first: &mut Option<(usize, Finding)>, index: usize, finding: Finding) {
    match first {
        Some((lower, _)) if *lower < index => {}
        _ => *first = Some((index, finding)),
    }
}

/// What the inputs of a part gave by this program's own reading.
pub trait Counted: Default {
    /// What is counted besides the runs.
    const WHAT: &'static str = "events";
    /// How a failing input is made smaller.
    const SMALLER: Smaller = smaller_inputs;
    /// Counts what one input gives.
    fn add(&mut self, input: &[u8]);
    /// How many events were read or written, or entries read.
    fn events(&self) -> usize;
    /// The counts in words, and whether every possible thing occurred.
    fn shown(&self) -> (String, bool);
    /// What the last line says of all parts together behind their runs.
    fn total(_parts: &[Self]) -> String {
        String::new()
    }
}

/// Counts in words, and whether every possible thing occurred.
pub type Shown<T> = fn(&T) -> (String, bool);

/// Some inputs of a comparison, and COMMAND as it is run on them.
pub struct Part<'a, T> {
    pub program: &'a Program<'a>,
    pub name: &'static str,
    pub inputs: Vec<Input>,
    /// The counts of them that are shown, if any: every possible thing must occur.
    pub needed: Option<Shown<T>>,
}

/// Compares COMMAND with this program part by part.
pub fn compare_parts<T: Counted>(seed: u64, list: &Lister, parts: &[Part<T>]) -> Verdict {
    let mut words = format!("seed {}\n", seed);
    let mut counted = Vec::new();
    for part in parts {
        match compare_part::<T>(list, part) {
            Ok((agreed, counts)) => {
                words += &agreed;
                counted.push(counts);
            }
            Err(failure) => return Verdict::new(words, Err(failure)),
        }
    }
    let runs: usize = parts.iter().map(|part| part.inputs.len()).sum();
    let total = T::total(&counted);
    Verdict::new(words, Ok(format!("all agree: {} runs{}\n", runs, total)))
}

/// Compares one part; the words of the first failure, or those of agreement and the counts.
fn compare_part<T: Counted>(list: &Lister, part: &Part<T>) -> Result<(String, T), String> {
    if let Some((input, finding)) = first_failing_input(part.program, &part.inputs, list) {
        let words = finding.shown(&input.shown());
        return Err(match finding {
            Finding::Fails(_) => words,
            Finding::Differs(_) => words + &shown_shrunk(part.program, list, input, T::SMALLER),
        });
    }
    let mut counts = T::default();
    part.inputs
        .iter()
        .for_each(|input| counts.add(&input.bytes));
    let agreed = format!(
        "{} inputs agree: {} runs, {} {}\n",
        part.name,
        part.inputs.len(),
        counts.events(),
        T::WHAT
    );
    match part.needed.map(|shown| shown(&counts)) {
        None => Ok((agreed, counts)),
        Some((rows, true)) => Ok((agreed + &rows, counts)),
        Some((rows, false)) => Err(format!(
            "{}{}too few {} inputs: not everything possible occurred\n",
            agreed, rows, part.name
        )),
    }
}

/// A smaller failing input found below a failing one, in words.
pub fn shown_shrunk(program: &Program, list: &Lister, input: &Input, smaller: Smaller) -> String {
    if input.bytes.len() > LONGEST_SHRUNK {
        return String::new();
    }
    let deadline = Instant::now() + SHRINKING_TIME;
    let fails = |bytes: &[u8]| {
        let differs = || compare_input(program, bytes, &list(bytes));
        Instant::now() < deadline && matches!(differs(), Err(Finding::Differs(_)))
    };
    let smallest = shrink_input(&fails, &input.bytes, SHRINKING_RUNS, smaller);
    format!(
        "smaller failing input found: {}\n{}",
        hex(&smallest),
        both_listings(program, &smallest, &list(&smallest))
    )
}
