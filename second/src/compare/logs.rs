//! `compare logs`: the fixed cases, the head faults and the random cases against COMMAND.

use crate::compare::difference::Verdict;
use crate::compare::failing::{both_listings, compare_input, first_failing, Failing};
use crate::compare::run::Program;
use crate::compare::shrink::shrink;
use crate::compare::tally::logs::Tally;
use crate::inputs::input::hex;
use crate::inputs::logs::case::{Batch, Case};
use crate::inputs::logs::fixed::{fixed_cases, head_inputs};
use crate::inputs::logs::random::make_cases;
use crate::listings::end::End;
use crate::listings::logs::{list_cases, OWN_READER};

/// The number of random cases unless another is asked for.
pub const DEFAULT_CASES: usize = 24_000;

/// So many cases go into one run of COMMAND.
const CASES_IN_ONE_RUN: usize = 6_000;

/// Compares COMMAND with this program's own log reader.
pub fn compare_logs(program: &Program, seed: u64, cases: usize) -> Verdict {
    let mut words = format!("seed {}\n", seed);
    let outcome = compare_all(program, seed, cases, &mut words);
    Verdict::new(words, outcome)
}

/// Goes through all parts; the words of the first failure, or those of agreement.
fn compare_all(
    program: &Program,
    seed: u64,
    cases: usize,
    words: &mut String,
) -> Result<String, String> {
    let fixed = fixed_cases();
    let calls = compare_cases(program, "fixed", &fixed)?.calls;
    *words += &format!(
        "fixed cases agree: {} cases, {} calls\n",
        fixed.len(),
        calls
    );
    let inputs = head_inputs();
    compare_heads(program, &inputs)?;
    *words += &format!("faults of heads agree: {} inputs\n", inputs.len());
    let made = make_cases(seed, cases);
    let tally = compare_cases(program, "random", &made)?;
    *words += &format!(
        "random cases agree: {} cases, {} calls\n",
        made.len(),
        tally.calls
    );
    let (counts, complete) = tally.shown();
    if complete {
        Ok(counts)
    } else {
        Err(counts + "too few cases: not every possible answer and kind occurred\n")
    }
}

/// Compares cases, many in one run; a failure is shown and shrunk.
fn compare_cases(program: &Program, name: &str, cases: &[Case]) -> Result<Tally, String> {
    let mut tally = Tally::default();
    for (run, batch) in cases.chunks(CASES_IN_ONE_RUN).enumerate() {
        if let Some(failing) = first_failing(program, batch).map_err(line)? {
            let number = run * CASES_IN_ONE_RUN + failing.index;
            let case = &batch[failing.index];
            let what = format!("{} case {}: {}", name, number, case.shown());
            return Err(failing.finding.shown(&what) + &shown_shrunk(program, case, &failing));
        }
        for case in batch {
            case.own_calls().iter().for_each(|call| tally.add(call));
        }
    }
    Ok(tally)
}

/// Words as a line.
fn line(words: String) -> String {
    words + "\n"
}

/// The shortest failing case found below a failing one, in words.
fn shown_shrunk(program: &Program, case: &Case, failing: &Failing) -> String {
    if !failing.alone {
        return line("by itself this case agrees: it fails only among others".to_string());
    }
    match shrink(program, case) {
        Err(words) => line(words),
        Ok(shortest) => {
            let batch = Batch::new(std::slice::from_ref(&shortest));
            format!(
                "shortest failing input found: {}\n{}",
                shortest.shown(),
                both_listings(program, &batch.input, &batch.listing)
            )
        }
    }
}

/// Compares inputs that end in a fault of a head, each in a run of its own.
fn compare_heads(program: &Program, inputs: &[Vec<u8>]) -> Result<(), String> {
    for input in inputs {
        let own = list_cases(input, End::Whole, &OWN_READER);
        compare_input(program, input, &own).map_err(|finding| {
            let what = format!("the whole input of logcases: {}", hex(input));
            finding.about_title().shown(&what)
        })?;
    }
    Ok(())
}
