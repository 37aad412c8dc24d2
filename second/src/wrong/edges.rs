//! Tests of `compare replay` itself: listings wrong only at a buffer's edge must be caught.

use crate::inputs::replay::edges::edge_replays;
use crate::inputs::replay::long::long_replays;
use crate::inputs::rng::DEFAULT_SEED;
use crate::inputs::trace::long::LONGEST;
use crate::listings::replay::own_replay;
use crate::listings::trace::entries_from;
use crate::model::log::Entry;
use crate::model::module::{Call, Given, Module};
use crate::model::write_log::shortest;
use crate::wrong::caught::caught;
use crate::wrong::replays::{with_fault, with_lines, with_steps, WrongListing};

/// Whether an entry lies across an edge of 65,536 bytes.
fn lies_across(entry: &Entry, from: usize) -> bool {
    from / 65_536 < (entry.place - 1) / 65_536
}

/// Listings that only logs or listings longer than 65,536 bytes show to be wrong.
const WRONG_AT_EDGE: [(&str, WrongListing); 9] = [
    ("nothing is read behind the edge", |log| {
        own_replay(&log[..log.len().min(65_536)])
    }),
    ("an entry across the edge is lost", |log| {
        let mut kept = Vec::new();
        let mut from = 0;
        for entry in entries_from(log, 0).0 {
            if !lies_across(&entry, from) {
                kept.extend(&log[from..entry.place]);
            }
            from = entry.place;
        }
        own_replay(&[&kept[..], &log[from..]].concat())
    }),
    ("a step across the edge not done, but told", |log| {
        with_steps(log, |module, entry, from| match lies_across(entry, from) {
            true => Given::new(Ok(0)),
            false => module.call(Call::of(entry)),
        })
    }),
    ("a step across the edge done twice, told once", |log| {
        with_steps(log, |module, entry, from| {
            let given = module.call(Call::of(entry));
            if lies_across(entry, from) {
                module.call(Call::of(entry));
            }
            given
        })
    }),
    (
        "a step that ends at the edge done twice, told once",
        |log| {
            with_steps(log, |module, entry, _| {
                let given = module.call(Call::of(entry));
                if entry.place % 65_536 == 0 {
                    module.call(Call::of(entry));
                }
                given
            })
        },
    ),
    ("places of 16 bits", |log| {
        with_fault(log, |answer, place| {
            format!("fault {} {}\n", answer, place % 65_536)
        })
    }),
    ("entries of 16 bits", |log| {
        with_lines(log, |number, line| match line.split_once(' ') {
            Some((_, rest)) if !line.starts_with('f') => format!("{} {}", number % 65_536, rest),
            _ => line.to_string(),
        })
    }),
    ("a line across the listing's edge cut there", |log| {
        let right = own_replay(log);
        match right.len() > 65_536 {
            true => {
                let next = right[65_536..].find('\n').expect("its end") + 65_536;
                right[..65_536].to_string() + &right[next..]
            }
            false => right,
        }
    }),
    ("nothing is written behind the listing's edge", |log| {
        let right = own_replay(log);
        right[..right.len().min(65_536)].to_string()
    }),
];

/// Listings that are wrong only where an entry lies over an edge and is long, or cut.
const WRONG_OVER_EDGE: [(&str, WrongListing); 4] = [
    ("the groups of data behind the edge lost", |log| {
        with_steps(log, |module, entry, from| match Call::of(entry) {
            Call::Write(offset, 32, data) if lies_across(entry, from) => {
                let kept = shortest(data).len().saturating_sub(entry.place % 65_536);
                let mask = (1u64 << (7 * kept)) - 1;
                module.call(Call::Write(offset, 32, data & mask as u32))
            }
            call => module.call(call),
        })
    }),
    ("what is cut at the edge taken as the end", |log| {
        let cut = cut_over_edge(log).filter(|_| log.len() == 65_536);
        own_replay(&log[..cut.unwrap_or(log.len())])
    }),
    ("what is cut behind the edge taken as the end", |log| {
        let cut = cut_over_edge(log).filter(|_| log.len() > 65_536);
        own_replay(&log[..cut.unwrap_or(log.len())])
    }),
    (
        "what is cut behind the edge told there",
        |log| match cut_over_edge(log) {
            Some(_) => with_fault(log, |answer, _| format!("fault {} 65536\n", answer)),
            None => own_replay(log),
        },
    ),
];

/// The place of the entry that begins before the first edge and is cut there or behind it, if any.
fn cut_over_edge(log: &[u8]) -> Option<usize> {
    let (_, place) = entries_from(log, 0).1?;
    (place < 65_536 && log.len() >= 65_536).then_some(place)
}

#[test]
fn long_logs_catch_what_goes_wrong_at_an_edge() {
    let long = long_replays(DEFAULT_SEED);
    for (what, wrong) in WRONG_AT_EDGE {
        let program = |log: &[u8]| wrong(log).into_bytes();
        assert!(caught(&program, &long, &own_replay), "{}", what);
    }
}

#[test]
fn edge_logs_catch_what_goes_wrong_over_an_edge() {
    let edge = edge_replays();
    for (what, wrong) in WRONG_OVER_EDGE {
        let program = |log: &[u8]| wrong(log).into_bytes();
        assert!(caught(&program, &edge, &own_replay), "{}", what);
    }
}

#[test]
fn what_goes_wrong_at_one_split_alone_is_caught() {
    let logs: Vec<Vec<u8>> = edge_replays()
        .into_iter()
        .map(|input| input.bytes)
        .collect();
    let longest = LONGEST.bytes();
    for split in 1..10 {
        for edge in [65_536, 131_072 - split, 131_072] {
            // The entry there is lost.
            let is_laid =
                |log: &&Vec<u8>| log.get(edge - split..edge - split + 10) == Some(&longest);
            let log = logs.iter().find(is_laid).expect("one of this split");
            let lost = [&log[..edge - split], &log[edge - split + 10..]].concat();
            assert_ne!(own_replay(&lost), own_replay(log), "{} at {}", split, edge);
        }
        for behind in 0..10 - split {
            // The end inside the entry is taken as the end.
            let is_cut = |log: &&Vec<u8>| {
                log.len() == 65_536 + behind && cut_over_edge(log) == Some(65_536 - split)
            };
            let log = logs.iter().find(is_cut).expect("one cut so");
            assert_ne!(own_replay(&log[..65_536 - split]), own_replay(log));
        }
    }
}
