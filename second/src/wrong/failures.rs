//! Tests of `compare failures` itself: programs that take a failed read wrongly must be caught.

use crate::compare::failures::{compare_failures, own_cut};
use crate::inputs::failures::failing_inputs;
use crate::inputs::rng::DEFAULT_SEED;
use crate::inputs::trace::long::EDGE;
use crate::listings::blocks::BLOCKS_TITLE;
use crate::listings::end::{is_cut, End};
use crate::listings::kind::{Kind, KINDS};
use crate::listings::trace_head::TITLE_830;
use crate::wrong::caught::caught;

/// The last line of a listing that is cut.
const FAILED: &str = "failed read 11\n";

/// A wrong listing of the bytes before a failure.
type Wrong = fn(Kind, &[u8]) -> String;

/// Every kind, and those that list more than one thing.
const ALL: [Kind; 6] = [
    Kind::Logs,
    Kind::Entries,
    Kind::Blocks,
    Kind::Makeblock,
    Kind::Trace,
    Kind::Replay,
];
const OF_MANY: [Kind; 5] = [
    Kind::Logs,
    Kind::Entries,
    Kind::Blocks,
    Kind::Trace,
    Kind::Replay,
];

/// The listing as it would be if the bytes were all.
fn whole(kind: Kind, bytes: &[u8]) -> String {
    kind.listing(bytes, End::Whole)
}

/// The right listing, changed by `change` if the failure cuts it; `change` is given what stands before the cut.
fn if_cut(kind: Kind, bytes: &[u8], change: impl Fn(&str) -> String) -> String {
    let right = own_cut(kind, bytes);
    match right.strip_suffix(FAILED) {
        Some(before) => change(before),
        None => right,
    }
}

/// A listing less its last line.
fn less_last(listing: &str) -> &str {
    let text = listing.strip_suffix('\n').unwrap_or(listing);
    text.rfind('\n').map_or("", |at| &listing[..=at])
}

/// What can be wrong, and the kinds by whose inputs it must be caught.
const WRONG: [(&str, &[Kind], Wrong); 13] = [
    ("a failure is an end", &ALL, whole),
    ("a failure is not told", &ALL, |kind, bytes| {
        if_cut(kind, bytes, str::to_string)
    }),
    ("another number", &ALL, |kind, bytes| {
        if_cut(kind, bytes, |before| format!("{}failed read 5\n", before))
    }),
    ("no line feed", &ALL, |kind, bytes| {
        if_cut(kind, bytes, |before| before.to_string() + FAILED.trim_end())
    }),
    ("a failure behind a whole listing", &ALL, |kind, bytes| {
        let right = own_cut(kind, bytes);
        match is_cut(&right) {
            true => right,
            false => right + FAILED,
        }
    }),
    ("an end, and then the failure", &ALL, |kind, bytes| {
        if_cut(kind, bytes, |_| whole(kind, bytes) + FAILED)
    }),
    ("the last line is lost", &OF_MANY, |kind, bytes| {
        if_cut(kind, bytes, |before| match before.lines().count() {
            0 | 1 => before.to_string() + FAILED,
            _ => less_last(before).to_string() + FAILED,
        })
    }),
    ("all is lost", &OF_MANY, |kind, bytes| {
        if_cut(kind, bytes, |_| FAILED.to_string())
    }),
    (
        "no title before a failure at once",
        &[Kind::Logs, Kind::Entries, Kind::Replay],
        |kind, bytes| match bytes.is_empty() {
            true => FAILED.to_string(),
            false => own_cut(kind, bytes),
        },
    ),
    (
        "a title before a cut head",
        &[Kind::Blocks, Kind::Trace],
        |kind, bytes| {
            let title = if kind == Kind::Blocks {
                BLOCKS_TITLE
            } else {
                TITLE_830
            };
            if_cut(kind, bytes, |before| match before.is_empty() {
                true => title.to_string() + FAILED,
                false => before.to_string() + FAILED,
            })
        },
    ),
    (
        "a memory behind the failure",
        &[Kind::Trace],
        |kind, bytes| {
            let all = whole(kind, bytes);
            let memory = all.find("memory").map_or("", |at| &all[at..]);
            if_cut(kind, bytes, |before| {
                format!("{}{}{}", before, FAILED, memory)
            })
        },
    ),
    (
        "a fault before the failure loses the memory",
        &[Kind::Trace],
        |kind, bytes| {
            let right = own_cut(kind, bytes);
            match right.find("memory") {
                Some(at) => right[..at].to_string(),
                None => right,
            }
        },
    ),
    (
        "what is behind the edge is lost",
        &OF_MANY,
        |kind, bytes| own_cut(kind, &bytes[..bytes.len().min(EDGE)]),
    ),
];

#[test]
fn every_wrong_program_is_caught() {
    for (what, kinds, wrong) in WRONG {
        for kind in kinds {
            let program = |input: &[u8]| wrong(*kind, input).into_bytes();
            let inputs = failing_inputs(*kind, DEFAULT_SEED);
            let own = |input: &[u8]| own_cut(*kind, input);
            assert!(caught(&program, &inputs, &own), "{:?}: {}", kind, what);
        }
    }
}

#[test]
fn a_right_program_agrees_and_a_wrong_one_is_shown() {
    for (name, kind) in KINDS {
        let right = |input: &[u8], _: usize| Ok(own_cut(kind, input).into_bytes());
        let verdict = compare_failures(&right, kind, DEFAULT_SEED);
        assert!(verdict.agreed, "{}: {}", name, verdict.words);
        let wrong = |input: &[u8], _: usize| Ok(whole(kind, input).into_bytes());
        let verdict = compare_failures(&wrong, kind, DEFAULT_SEED);
        let words = verdict.words;
        assert!(
            !verdict.agreed && words.contains("MISMATCH in "),
            "{}",
            words
        );
        let shown = words.contains("smaller failing input found: no bytes");
        assert!(shown && words.contains("failed read 11"), "{}", words);
    }
}

#[test]
fn every_seed_gives_each_kind_all_its_cuts() {
    for seed in 0..12 {
        for (name, kind) in KINDS {
            let right = |input: &[u8], _: usize| Ok(own_cut(kind, input).into_bytes());
            let verdict = compare_failures(&right, kind, seed);
            assert!(
                verdict.agreed,
                "{} by seed {}: {}",
                name, seed, verdict.words
            );
        }
    }
}
