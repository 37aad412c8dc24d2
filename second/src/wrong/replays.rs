//! Tests of `compare replay` itself: listings and modules that are wrong on purpose must be caught.

use crate::compare::replay::{compare_replay, DEFAULT_LOGS};
use crate::compare::run::Trouble;
use crate::inputs::replay::fixed::fixed_replays;
use crate::inputs::replay::long::long_replays;
use crate::inputs::replay::random::make_replays;
use crate::inputs::rng::DEFAULT_SEED;
use crate::listings::end::End;
use crate::listings::own_module::{own_start, Own};
use crate::listings::replay::{list_replay, own_replay, replay_head, REPLAY_TITLE};
use crate::listings::trace::entries_from;
use crate::listings::trace_head::v830;
use crate::model::log::Entry;
use crate::model::module::{Call, Given, Module};
use crate::wrong::caught::caught;
use crate::wrong::v830::Wrong830;
use crate::wrong::v830_slips::{
    Slip830::{self, *},
    SLIPS_830,
};

/// So many random logs must catch what any logs can.
const SHARE: usize = 600;

/// A listing that is wrong.
pub type WrongListing = fn(&[u8]) -> String;

/// The listing of this program's own V830 started with another GEO or memory.
fn started(log: &[u8], geo: u32, words: u32) -> String {
    list_replay(log, End::Whole, own_start(&v830(geo, words, 0)).1)
}

/// The listing with each line behind the title changed, by its number.
pub fn with_lines(log: &[u8], change: fn(usize, &str) -> String) -> String {
    let right = own_replay(log);
    let lines = right.lines().enumerate().skip(1);
    lines.fold(REPLAY_TITLE.to_string(), |listing, (number, line)| {
        listing + &change(number, line) + "\n"
    })
}

/// The listing with its fault changed, by the number and the place.
pub fn with_fault(log: &[u8], change: fn(u32, usize) -> String) -> String {
    let right = own_replay(log);
    match entries_from(log, 0).1 {
        None => right,
        Some((answer, place)) => {
            let at = right.rfind("fault").expect("a fault");
            right[..at].to_string() + &change(answer, place)
        }
    }
}

/// The listing of a module whose steps are done otherwise, by the place of the entry's first byte.
pub fn with_steps(log: &[u8], step: fn(&mut Own, &Entry, usize) -> Given) -> String {
    let (_, mut module) = own_start(&replay_head());
    let mut from = 0;
    let mut listing = REPLAY_TITLE.to_string();
    let (entries, fault) = entries_from(log, 0);
    for (number, entry) in entries.iter().enumerate() {
        let given = step(&mut module, entry, from);
        listing += &format!("{} {} {}\n", number + 1, given.answer, given.value);
        from = entry.place;
    }
    match fault {
        Some((answer, place)) => listing + &format!("fault {} {}\n", answer, place),
        None => listing,
    }
}

/// Listings that logs of every length show to be wrong.
const WRONG_LISTINGS: [(&str, WrongListing); 12] = [
    ("no title", |log| {
        own_replay(log)[REPLAY_TITLE.len()..].to_string()
    }),
    ("entries counted from 0", |log| {
        with_lines(log, |number, line| match line.split_once(' ') {
            Some((_, rest)) if !line.starts_with('f') => format!("{} {}", number - 1, rest),
            _ => line.to_string(),
        })
    }),
    ("no line of a refused entry", |log| {
        let right = own_replay(log);
        let mut lines: Vec<&str> = right.split_inclusive('\n').collect();
        lines.retain(|line| {
            line.ends_with("value\n") || line.contains(" 0 ") || line.starts_with('f')
        });
        lines.concat()
    }),
    ("the value kept on a refusal", |log| {
        let mut kept = "0".to_string();
        let right = own_replay(log);
        let lines = right.split_inclusive('\n').map(|line| {
            let words: Vec<&str> = line.trim_end().split(' ').collect();
            match words[..] {
                [number, "0", value] => {
                    kept = value.to_string();
                    format!("{} 0 {}\n", number, value)
                }
                [number, answer, _] if !"ef".contains(&number[..1]) => {
                    format!("{} {} {}\n", number, answer, kept)
                }
                _ => line.to_string(),
            }
        });
        lines.collect()
    }),
    ("the data of a write as its value", |log| {
        with_steps(log, |module, entry, _| {
            let mut given = module.call(Call::of(entry));
            given.value |= entry.arguments[2];
            given
        })
    }),
    ("MAN CLR answered 0", |log| {
        with_steps(log, |module, entry, _| match Call::of(entry) {
            Call::ManClr => Given::new(Ok(0)),
            call => module.call(call),
        })
    }),
    ("the line's trigger by the register", |log| {
        with_steps(log, |module, entry, _| match Call::of(entry) {
            Call::Trigger => module.call(Call::Write(0x1124, 16, 0)),
            call => module.call(call),
        })
    }),
    ("the fault's place one byte behind", |log| {
        with_fault(log, |answer, place| {
            format!("fault {} {}\n", answer, place + 1)
        })
    }),
    ("no line feed behind a fault", |log| {
        with_fault(log, |answer, place| format!("fault {} {}", answer, place))
    }),
    ("the end inside an entry taken as the end", |log| {
        with_fault(log, |answer, place| match answer {
            30 => String::new(),
            _ => format!("fault {} {}\n", answer, place),
        })
    }),
    (
        "a fault at the end between two entries",
        |log| match entries_from(log, 0).1 {
            None => own_replay(log) + &format!("fault 30 {}\n", log.len()),
            Some(_) => own_replay(log),
        },
    ),
    ("GEO 1 in the header", |log| started(log, 1, 16_384)),
];

/// Memories of another length, which only logs that fill them show.
const WRONG_MEMORIES: [(&str, WrongListing); 4] = [
    ("16,383 words", |log| started(log, 0, 16_383)),
    ("16,385 words", |log| started(log, 0, 16_385)),
    ("32,768 words", |log| started(log, 0, 32_768)),
    ("the memory's last word not used", |log| {
        with_steps(log, |module, entry, _| match module {
            // A trigger that would fill the last word is refused.
            Own::V830(own) => {
                let mut after = own.clone();
                let given = after.call(Call::of(entry));
                match after.record.stored > 16_383 && own.record.stored <= 16_383 {
                    true => Given::new(Err(9)),
                    false => {
                        *own = after;
                        given
                    }
                }
            }
            Own::Scaler(_) => unreachable!("a V830 is started"),
        })
    }),
];

/// Slips of a V830 that no replay shows.
const NOT_SHOWN: [Slip830; 27] = [
    // Of another start than the replay's, and of a GEO other than 0.
    RefusedStartAnswers0,
    RefusedStartKeepsGeo,
    RefusedStartKeepsCapacity,
    StartTakesGeo32,
    StartCutsGeo,
    StartTakes32769,
    StartTakesNoWords,
    LengthBeforeGeo,
    ResetClearsGeo,
    HeaderWithoutGeo,
    // Of a malformed record.
    ManClrBefore12,
    SevenBefore12,
    // Of lent words that are not stored, and of the first place, by itself.
    StartZeroesMemory,
    EmptyingZeroesWords,
    ResetZeroesWords,
    ReadZeroes,
    EmptyingKeepsFirst,
    ResetKeepsFirst,
    EnableEmpties,
    LastReadSetsFirst,
    FirstPastEnd,
    // Of more events than 16,384, and of more pulses than are counted quickly.
    EventNumberOf15Bits,
    Width26,
    CountStops,
    ShortNotMasked,
    ShortOf27Bits,
    LongMasked,
];

#[test]
fn every_wrong_listing_is_caught_by_fixed_and_by_random_logs() {
    let fixed = fixed_replays();
    let random = make_replays(DEFAULT_SEED, SHARE);
    for (what, wrong) in WRONG_LISTINGS.into_iter().chain(WRONG_MEMORIES) {
        let program = |log: &[u8]| wrong(log).into_bytes();
        assert!(caught(&program, &fixed, &own_replay), "fixed: {}", what);
        assert!(caught(&program, &random, &own_replay), "random: {}", what);
    }
}

#[test]
fn every_slip_of_a_v830_that_a_replay_shows_is_caught() {
    let random = make_replays(DEFAULT_SEED, SHARE);
    let inputs = [fixed_replays(), random, long_replays(DEFAULT_SEED)].concat();
    let is_caught = |slip: Slip830| {
        let start = || Wrong830::start(slip, &replay_head()).1;
        let program = |log: &[u8]| list_replay(log, End::Whole, start()).into_bytes();
        caught(&program, &inputs, &own_replay)
    };
    assert!(!is_caught(Nothing));
    let mut slips = SLIPS_830.to_vec();
    slips.retain(|slip| !NOT_SHOWN.contains(slip) && !is_caught(*slip));
    assert!(slips.is_empty(), "{:#?}", slips);
}

#[test]
fn right_listings_agree_and_few_logs_do_not_suffice() {
    let right = |log: &[u8], _: usize| Ok(own_replay(log).into_bytes());
    let verdict = compare_replay(&right, &right, DEFAULT_SEED, DEFAULT_LOGS);
    assert!(verdict.agreed, "{}", verdict.words);
    let few = compare_replay(&right, &right, DEFAULT_SEED, 3);
    assert!(!few.agreed);
    for told in [
        "never occurred: V830 answers ",
        "never occurred: faults of logs ",
    ] {
        assert!(few.words.contains(told), "{}", few.words);
    }
}

#[test]
fn a_mismatch_is_reported_with_a_small_log_and_its_column() {
    let wrong = |log: &[u8], _: usize| Ok(started(log, 1, 16_384).into_bytes());
    let verdict = compare_replay(&wrong, &wrong, DEFAULT_SEED, 20);
    assert!(!verdict.agreed);
    let told = "the first differing number is value\n";
    assert!(verdict.words.contains(told), "{}", verdict.words);
    assert!(verdict.words.contains("smaller failing input found: "));
}

#[test]
fn a_program_that_fails_on_pieces_only_is_caught() {
    let right = |log: &[u8], _: usize| Ok(own_replay(log).into_bytes());
    let dies = |_: &[u8], _: usize| Err(Trouble::Died("it died of a short read".to_string()));
    let verdict = compare_replay(&right, &dies, DEFAULT_SEED, DEFAULT_LOGS);
    assert!(!verdict.agreed);
    assert!(verdict.words.contains("it died of a short read"));
}
