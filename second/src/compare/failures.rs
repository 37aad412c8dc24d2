//! `compare failures`: inputs of any kind that a failed read cuts, each in a run of COMMAND of its own.

use crate::compare::difference::Verdict;
use crate::compare::failing::Finding;
use crate::compare::run::{Program, FAILURE};
use crate::compare::runs::{first_failing_input, shown_shrunk};
use crate::compare::shrink::smaller_inputs;
use crate::compare::tally::row::Row;
use crate::inputs::failures::failing_inputs;
use crate::inputs::input::Input;
use crate::listings::end::{is_cut, End};
use crate::listings::kind::Kind;

const IN_HEAD: &str = "in the head";
const INSIDE: &str = "inside";
const BETWEEN: &str = "between";
const NOT_CUT: &str = "not cut";

/// Compares COMMAND's listing of every input, whose reading fails behind it, with this program's own.
pub fn compare_failures(program: &Program, kind: Kind, seed: u64) -> Verdict {
    let outcome = compare_all(program, kind, &failing_inputs(kind, seed));
    Verdict::new(format!("seed {}\n", seed), outcome)
}

/// This program's own listing of the bytes before a failure.
pub fn own_cut(kind: Kind, bytes: &[u8]) -> String {
    kind.listing(bytes, End::Failed(FAILURE))
}

/// Goes through the inputs; the words of the first failure, or those of agreement.
fn compare_all(program: &Program, kind: Kind, inputs: &[Input]) -> Result<String, String> {
    let list = |bytes: &[u8]| own_cut(kind, bytes);
    if let Some((input, finding)) = first_failing_input(program, inputs, &list) {
        let words = finding.shown(&input.shown());
        return Err(match finding {
            Finding::Fails(_) => words,
            Finding::Differs(_) => words + &shown_shrunk(program, &list, input, smaller_inputs),
        });
    }
    let mut cuts = Row::new("cut", possible(kind).iter().copied());
    inputs
        .iter()
        .for_each(|input| cuts.add(cut_in(kind, &input.bytes)));
    let agreed = format!("inputs that fail agree: {} runs\n", inputs.len());
    match cuts.shown() {
        (row, true) => Ok(agreed + &row),
        (row, false) => Err(format!(
            "{}{}too few inputs: not everything possible occurred\n",
            agreed, row
        )),
    }
}

/// Where the inputs of a kind can be cut, as `cut_in` tells it.
fn possible(kind: Kind) -> &'static [&'static str] {
    match kind {
        Kind::Logs | Kind::Entries | Kind::Replay => &[INSIDE, BETWEEN, NOT_CUT],
        Kind::Blocks | Kind::Trace => &[IN_HEAD, INSIDE, BETWEEN, NOT_CUT],
        Kind::Makeblock => &[IN_HEAD, NOT_CUT],
    }
}

/// Where the failure cuts a listing: in the head that must be whole before a line is shown, inside an entry, event
/// or case, or between two; or not at all, where a fault, a refused event or the last number stands before it.
fn cut_in(kind: Kind, bytes: &[u8]) -> &'static str {
    let cut = own_cut(kind, bytes);
    let lines = cut.lines().count();
    let shown: usize = cut
        .split_inclusive('\n')
        .take(lines - 1)
        .map(str::len)
        .sum();
    let whole = kind.listing(bytes, End::Whole);
    match &whole[shown..] {
        _ if !is_cut(&cut) => NOT_CUT,
        _ if lines == 1 => IN_HEAD,
        rest if rest.is_empty() || rest.starts_with("memory") => BETWEEN,
        _ => INSIDE,
    }
}
