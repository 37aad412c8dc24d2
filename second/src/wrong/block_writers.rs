//! Tests of `compare makeblock` itself: block writers and listings that are wrong on purpose must
//! be caught, by the fixed inputs and by the random ones.

use crate::compare::makeblock::{compare_makeblock, DEFAULT_REQUESTS};
use crate::inputs::makeblock::fixed::fixed_requests;
use crate::inputs::makeblock::random::make_requests;
use crate::inputs::rng::DEFAULT_SEED;
use crate::listings::end::End;
use crate::listings::head::head_numbers;
use crate::listings::makeblock::{list_makeblock, own_makeblock, read_request, HEAD_NUMBERS};
use crate::model::block::{Event, Settings, Written};
use crate::model::write_log::numbers_bytes;
use crate::wrong::caught::caught;

/// The one thing that a wrong writer does wrong.
#[derive(Clone, Copy, Debug, PartialEq)]
enum Slip {
    Nothing,
    Unasked(usize),
    OneMore(usize),
    OneLess(usize),
    Order([u32; 3]),
    WritesThenRefuses(u32),
    ClearsTheRest,
    WritesAtTheEnd,
    NeedsOneMore,
    RefusedLength,
    LengthLessHeader,
    NoneEnabledIs8,
    NoBit26,
    CountOf5Bits,
    NoSource,
    RunningChannel,
    Descending,
    LongOf26Bits,
    ShortOfEnabledOnly,
}

use Slip::*;

/// Every slip of a writer; the conditions of 28 count from 0 as `unwritable` lists them.
const SLIPS: [Slip; 34] = [
    Unasked(0),
    Unasked(1),
    Unasked(2),
    Unasked(3),
    Unasked(4),
    Unasked(5),
    Unasked(6),
    Unasked(7),
    OneMore(0),
    OneMore(1),
    OneMore(2),
    OneMore(3),
    OneLess(0),
    OneLess(1),
    OneLess(2),
    OneLess(3),
    Order([8, 27, 28]),
    Order([28, 8, 27]),
    Order([27, 8, 28]),
    Order([28, 27, 8]),
    WritesThenRefuses(27),
    WritesThenRefuses(28),
    ClearsTheRest,
    WritesAtTheEnd,
    NeedsOneMore,
    RefusedLength,
    LengthLessHeader,
    NoneEnabledIs8,
    NoBit26,
    CountOf5Bits,
    NoSource,
    RunningChannel,
    Descending,
    LongOf26Bits,
];

/// The conditions of 28 with a slip.
fn unwritable(slip: Slip, settings: &Settings, event: &Event) -> [bool; 8] {
    let above = |condition: usize, value: u32, most: u64| {
        let most = match slip {
            OneMore(slipped) if slipped == condition => most + 1,
            OneLess(slipped) if slipped == condition => most - 1,
            _ => most,
        };
        u64::from(value) > most
    };
    let counts = || event.counts.iter().enumerate();
    let short_asked = |channel: usize| slip != ShortOfEnabledOnly || settings.enabled(channel);
    let short = |(channel, count): (usize, &u32)| {
        settings.short && short_asked(channel) && above(3, *count, 0x3FFFFFF)
    };
    let disabled = |(channel, count): (usize, &u32)| !settings.enabled(channel) && *count > 0;
    let bare = !settings.header;
    let mut conditions = [
        above(0, event.geo, 31),
        above(1, event.source, 3),
        above(2, event.trigger, 65_535),
        counts().any(short),
        counts().any(disabled),
        bare && event.geo > 0,
        bare && event.source > 0,
        bare && event.trigger > 0,
    ];
    if let Unasked(slipped) = slip {
        conditions[slipped] = false;
    }
    conditions
}

/// The words of an event with a slip.
fn words(slip: Slip, settings: &Settings, event: &Event) -> Vec<u32> {
    let mut channels = settings.channels();
    let mut words = Vec::new();
    if settings.header {
        let mark = if slip == NoBit26 { 0 } else { 1 << 26 };
        let source = if slip == NoSource {
            0
        } else {
            event.source << 16
        };
        let count = match slip {
            CountOf5Bits => channels.len() % 32,
            _ => channels.len(),
        };
        let fields = event.geo << 27 | source | event.trigger;
        words.push(mark | fields | (count as u32) << 18);
    }
    if slip == Descending {
        channels.reverse();
    }
    for (position, channel) in channels.into_iter().enumerate() {
        let number = if slip == RunningChannel {
            position
        } else {
            channel
        };
        let count = event.counts[channel];
        words.push(match settings.short {
            true => (number as u32) << 27 | count,
            false if slip == LongOf26Bits => count % 0x4000000,
            false => count,
        });
    }
    words
}

/// The number of the first refusal, in the slip's order.
fn refusal(slip: Slip, settings: &Settings, event: &Event, room: usize) -> Option<u32> {
    let length = words(slip, settings, event).len();
    let none = length == 0 || slip == NoneEnabledIs8 && settings.enable == 0;
    let order = match slip {
        Order(order) => order,
        _ => [8, 28, 27],
    };
    order.into_iter().find(|answer| match answer {
        8 => none,
        28 => unwritable(slip, settings, event).contains(&true),
        _ => room < length + usize::from(slip == NeedsOneMore) || length == 0 && room == 0,
    })
}

/// What a writer with a slip gives.
fn write(slip: Slip, settings: &Settings, event: &Event, lent: &mut [u32]) -> Written {
    let words = words(slip, settings, event);
    let refused = refusal(slip, settings, event, lent.len());
    if let Some(answer) = refused {
        if slip == WritesThenRefuses(answer) {
            lent.iter_mut()
                .zip(&words)
                .for_each(|(to, word)| *to = *word);
        }
        let length = if slip == RefusedLength {
            words.len()
        } else {
            0
        };
        return Written { answer, length };
    }
    let from = if slip == WritesAtTheEnd {
        lent.len() - words.len()
    } else {
        0
    };
    lent[from..from + words.len()].copy_from_slice(&words);
    if slip == ClearsTheRest {
        lent[words.len()..].fill(0);
    }
    let less = usize::from(slip == LengthLessHeader && settings.header);
    Written {
        answer: 0,
        length: words.len() - less,
    }
}

/// The `makeblock` listing of a writer with a slip.
fn listing(slip: Slip, input: &[u8]) -> Vec<u8> {
    let writer =
        |settings: &Settings, event: &Event, lent: &mut [u32]| write(slip, settings, event, lent);
    list_makeblock(input, End::Whole, &writer).into_bytes()
}

/// A listing that is wrong otherwise than by its writer.
type WrongListing = fn(&[u8]) -> String;

/// Listings that are wrong.
const WRONG_LISTINGS: [(&str, WrongListing); 4] = [
    ("ranges looked at last", |input| {
        let right = own_makeblock(input);
        match head_numbers(input, 0, &[u32::MAX; HEAD_NUMBERS]) {
            Err(answer) if right == "fault 34 0\n" => format!("fault {} 0\n", answer),
            _ => right,
        }
    }),
    ("no second line where nothing is lent", |input| {
        own_makeblock(input).replace("\n\n", "\n")
    }),
    ("bytes behind the last count", |input| {
        match read_request(input) {
            Ok(request) if numbers_bytes(&request.numbers()).len() < input.len() => {
                "fault 34 0\n".to_string()
            }
            _ => own_makeblock(input),
        }
    }),
    ("a cut last count read as 0", |input| {
        let more = [input, &[0]].concat();
        match own_makeblock(input) == "fault 30 0\n" {
            true => own_makeblock(&more),
            false => own_makeblock(input),
        }
    }),
];

#[test]
fn every_slip_is_caught_by_fixed_and_by_random_inputs() {
    let fixed = fixed_requests();
    let random = make_requests(DEFAULT_SEED, DEFAULT_REQUESTS);
    for slip in SLIPS {
        let program = |input: &[u8]| listing(slip, input);
        assert!(
            caught(&program, &fixed, &own_makeblock),
            "fixed: {:?}",
            slip
        );
        assert!(
            caught(&program, &random, &own_makeblock),
            "random: {:?}",
            slip
        );
    }
    for (what, wrong) in WRONG_LISTINGS {
        let program = |input: &[u8]| wrong(input).into_bytes();
        assert!(caught(&program, &fixed, &own_makeblock), "fixed: {}", what);
    }
}

#[test]
fn a_right_writer_agrees() {
    // A short count asked of enabled channels only is no slip: a disabled channel's count that is
    // not 0 is refused with the same number.
    for slip in [Nothing, ShortOfEnabledOnly] {
        let program = |input: &[u8], _: usize| Ok(listing(slip, input));
        let verdict = compare_makeblock(&program, DEFAULT_SEED, DEFAULT_REQUESTS);
        assert!(verdict.agreed, "{}", verdict.words);
    }
}

#[test]
fn a_mismatch_is_shown_and_made_smaller() {
    let verdict = compare_makeblock(&|input, _| Ok(listing(NoBit26, input)), 5, 100);
    assert!(!verdict.agreed);
    for told in ["MISMATCH in a marked case", "smaller failing input found: "] {
        assert!(verdict.words.contains(told), "{}", verdict.words);
    }
}

#[test]
fn too_few_cases_are_no_agreement() {
    let verdict = compare_makeblock(&|input, _| Ok(listing(Nothing, input)), DEFAULT_SEED, 9);
    assert!(!verdict.agreed);
    assert!(
        verdict.words.contains("too few random inputs"),
        "{}",
        verdict.words
    );
}
