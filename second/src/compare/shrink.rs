//! Makes a failing case as small as it gets: fewer bytes, then a lower start, then lower bytes;
//! and a failing input of a run of its own as small as few runs make it.

use crate::compare::failing::first_failing;
use crate::compare::run::Program;
use crate::inputs::logs::case::Case;

/// Up to this length every stretch of bytes is tried for removal, and every lower value of a byte.
const SHORT: usize = 40;
/// Up to this length a removal and a change of a byte are tried together.
const VERY_SHORT: usize = 8;
/// Of a longer log, stretches are tried down to this part of it.
const FINEST_PART: usize = 64;
/// About so many log bytes go into one run.
const RUN_BYTES: usize = 1 << 20;

/// The smallest failing case that leads down from a failing one.
pub fn shrink(program: &Program, failing: &Case) -> Result<Case, String> {
    let mut smallest = failing.clone();
    while let Some(smaller) = smaller_failing(program, &smallest)? {
        smallest = smaller;
    }
    Ok(smallest)
}

/// A smaller case that fails too: one step below, or for a very short log two steps below.
fn smaller_failing(program: &Program, case: &Case) -> Result<Option<Case>, String> {
    match first_of(program, case, one_step_below(case))? {
        None if case.bytes.len() <= VERY_SHORT => {
            first_of(program, case, shorter_and_changed(case))
        }
        found => Ok(found),
    }
}

/// The smallest of the candidates that is below the case and fails too, many tried in one run.
fn first_of(
    program: &Program,
    case: &Case,
    mut candidates: Vec<Case>,
) -> Result<Option<Case>, String> {
    candidates.retain(|candidate| candidate.size() < case.size());
    candidates.sort_by(|one, other| one.size().cmp(&other.size()));
    candidates.dedup();
    let in_one_run = (RUN_BYTES / (case.bytes.len() + 8)).max(1);
    for some in candidates.chunks(in_one_run) {
        if let Some(failing) = first_failing(program, some)? {
            if failing.alone {
                return Ok(Some(some[failing.index].clone()));
            }
        }
    }
    Ok(None)
}

/// The inputs one step below an input, the smallest ones first.
pub type Smaller = fn(&[u8]) -> Vec<Vec<u8>>;

/// A smaller input that fails too, not more than `runs` being tried.
pub fn shrink_input(
    fails: &dyn Fn(&[u8]) -> bool,
    failing: &[u8],
    runs: usize,
    smaller: Smaller,
) -> Vec<u8> {
    let mut smallest = failing.to_vec();
    let mut left = runs;
    let mut still_fails = |smaller: &Vec<u8>| {
        let tried = left > 0;
        left = left.saturating_sub(1);
        tried && fails(smaller)
    };
    let mut turn = 0;
    loop {
        // Steps that failed to fail are tried again last.
        let mut steps = smaller(&smallest);
        let turned = turn.min(steps.len());
        steps.rotate_left(turned);
        match steps.iter().position(&mut still_fails) {
            None => return smallest,
            Some(at) => {
                turn = (turned + at) % steps.len();
                smallest = steps.swap_remove(at);
            }
        }
    }
}

/// The inputs one step below an input: less a stretch, long ones first, or with one byte 0.
pub fn smaller_inputs(input: &[u8]) -> Vec<Vec<u8>> {
    let mut removed = stretches(input.len());
    removed.sort_by_key(|(from, to)| from + input.len() - to);
    let mut all: Vec<Vec<u8>> = removed
        .into_iter()
        .map(|(from, to)| [&input[..from], &input[to..]].concat())
        .collect();
    for (place, _) in input.iter().enumerate().filter(|(_, byte)| **byte != 0) {
        all.push(input.to_vec());
        all.last_mut().expect("just pushed")[place] = 0;
    }
    all
}

/// The cases one step below a case.
fn one_step_below(case: &Case) -> Vec<Case> {
    let mut all = without_stretches(case);
    all.extend(with_lower_starts(case));
    if case.bytes.len() <= SHORT {
        for (place, byte) in case.bytes.iter().enumerate() {
            all.extend((0..*byte).map(|lower| with_byte(case, place, lower)));
        }
    }
    all
}

/// The case with a stretch of its bytes removed and one byte of the rest changed to any value.
fn shorter_and_changed(case: &Case) -> Vec<Case> {
    let mut all = Vec::new();
    for shorter in without_stretches(case) {
        for place in 0..shorter.bytes.len() {
            all.extend((0..=255).map(|byte| with_byte(&shorter, place, byte)));
        }
    }
    all
}

/// The case with one byte changed.
fn with_byte(case: &Case, place: usize, byte: u8) -> Case {
    let mut changed = case.clone();
    changed.bytes[place] = byte;
    changed
}

/// The case with a stretch of its bytes removed, in every way that is tried.
fn without_stretches(case: &Case) -> Vec<Case> {
    stretches(case.bytes.len())
        .into_iter()
        .flat_map(|(from, to)| {
            let kept = [&case.bytes[..from], &case.bytes[to..]].concat();
            let moved = case.start.saturating_sub(to - from);
            vec![Case::new(case.start, &kept), Case::new(moved, &kept)]
        })
        .collect()
}

/// The stretches tried: all of a short log; halves, quarters and so on of a long one.
pub fn stretches(length: usize) -> Vec<(usize, usize)> {
    let mut all = Vec::new();
    if length <= SHORT {
        for from in 0..length {
            all.extend((from + 1..=length).map(|to| (from, to)));
        }
        return all;
    }
    let mut size = length / 2;
    while size > 0 && size >= length / FINEST_PART {
        let froms = (0..length).step_by(size);
        all.extend(froms.map(|from| (from, (from + size).min(length))));
        size /= 2;
    }
    all
}

/// The case read from lower places.
fn with_lower_starts(case: &Case) -> Vec<Case> {
    let start = case.start;
    [
        0,
        start / 2,
        start.min(case.bytes.len()),
        start.saturating_sub(1),
    ]
    .iter()
    .map(|lower| Case::new(*lower, &case.bytes))
    .collect()
}
