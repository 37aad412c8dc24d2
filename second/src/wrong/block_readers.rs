//! Tests of `compare blocks` itself: block readers that are wrong on purpose must be caught, by
//! the fixed inputs and by the random ones.

use crate::compare::blocks::{compare_blocks, DEFAULT_BLOCKS};
use crate::inputs::blocks::fixed::fixed_blocks;
use crate::inputs::blocks::random::make_blocks;
use crate::inputs::rng::DEFAULT_SEED;
use crate::listings::blocks::{list_blocks, own_blocks};
use crate::listings::end::End;
use crate::model::block::{Event, Read, Settings};
use crate::wrong::caught::caught;

/// The one thing that a wrong reader does wrong.
#[derive(Clone, Copy, Debug, PartialEq)]
enum Slip {
    Nothing,
    AnyBit25,
    AnyBit24,
    AnyBit26,
    SwappedChecks(usize),
    AnswerFor(usize, u32),
    Count33,
    CountOf5Bits,
    CountAtLeast,
    ShortBodyFirst,
    ShortBodyLast,
    ChannelFirst,
    Bit26OfAllFirst,
    ChannelOfDatum,
    AnyEnabledChannel,
    AscendingChannel,
    FirstDatumOnly,
    AnyChannelWithoutHeader,
    GeoOf4Bits,
    SourceOf1Bit,
    TriggerOf15Bits,
    CountOf25Bits,
    LongOf26Bits,
    Descending,
    LengthLessHeader,
    LengthMore,
    OneWordMore,
    HeaderBehind,
    RefusedLength,
    RefusedHeader,
    RefusedCounts,
    NoneEnabledIs8,
    NoWordsIs20,
}

use Slip::*;

/// Every slip of a reader.
const SLIPS: [Slip; 38] = [
    AnyBit25,
    AnyBit24,
    AnyBit26,
    SwappedChecks(0),
    SwappedChecks(1),
    SwappedChecks(2),
    AnswerFor(0, 26),
    AnswerFor(1, 21),
    AnswerFor(2, 25),
    AnswerFor(3, 22),
    Count33,
    CountOf5Bits,
    CountAtLeast,
    ShortBodyFirst,
    ShortBodyLast,
    ChannelFirst,
    Bit26OfAllFirst,
    ChannelOfDatum,
    AnyEnabledChannel,
    AscendingChannel,
    FirstDatumOnly,
    AnyChannelWithoutHeader,
    GeoOf4Bits,
    SourceOf1Bit,
    TriggerOf15Bits,
    CountOf25Bits,
    LongOf26Bits,
    Descending,
    LengthLessHeader,
    LengthMore,
    OneWordMore,
    HeaderBehind,
    RefusedLength,
    RefusedHeader,
    RefusedCounts,
    NoneEnabledIs8,
    NoWordsIs20,
    AnswerFor(3, 20),
];

/// The checks of a header in their order, each with its number and whether it fails.
fn header_checks(slip: Slip, word: u32, enabled: u32) -> [(u32, bool); 4] {
    let count = word / 0x40000 % 64;
    let low_bits = match slip {
        AnyBit25 => word / 0x1000000 % 2,
        AnyBit24 => word / 0x2000000 % 2,
        _ => word / 0x1000000 % 4,
    };
    let differs = match slip {
        CountOf5Bits => count % 32 != enabled % 32,
        CountAtLeast => count < enabled,
        _ => count != enabled,
    };
    let most = if slip == Count33 { 33 } else { 32 };
    let mut checks = [
        (21, word / 0x4000000 % 2 == 0 && slip != AnyBit26),
        (26, low_bits != 0),
        (22, count > most),
        (25, differs),
    ];
    match slip {
        SwappedChecks(first) => checks.swap(first, first + 1),
        AnswerFor(check, answer) => checks[check].0 = answer,
        _ => {}
    }
    checks
}

/// The number of the first check that fails.
fn first_of(checks: &[(u32, bool)]) -> Result<(), u32> {
    match checks.iter().find(|(_, fails)| *fails) {
        Some((answer, _)) => Err(*answer),
        None => Ok(()),
    }
}

/// The fields of a header.
fn header_fields(slip: Slip, word: u32, event: &mut Event) {
    let bits = |right: u32, wrong: u32, by: Slip| if slip == by { wrong } else { right };
    event.geo = word / 0x8000000 % bits(32, 16, GeoOf4Bits);
    event.source = word / 0x10000 % bits(4, 2, SourceOf1Bit);
    event.trigger = word % bits(0x10000, 0x8000, TriggerOf15Bits);
}

/// The two checks of a short datum in their order.
fn datum_checks(
    slip: Slip,
    settings: &Settings,
    position: usize,
    due: usize,
    words: &[u32],
) -> [(u32, bool); 2] {
    let channel = |word: u32| (word / 0x8000000) as usize;
    let given = channel(words[position]);
    let wrong = match slip {
        ChannelOfDatum => false,
        AnyEnabledChannel => !settings.enabled(given),
        AscendingChannel => {
            !settings.enabled(given) || position > 0 && given <= channel(words[position - 1])
        }
        FirstDatumOnly => position == 0 && given != due,
        AnyChannelWithoutHeader => settings.header && given != due,
        _ => given != due,
    };
    let mut checks = [(23, words[position] / 0x4000000 % 2 == 1), (24, wrong)];
    if slip == ChannelFirst {
        checks.swap(0, 1);
    }
    checks
}

/// Reads the data, each as its channel's, into the event.
fn data(slip: Slip, settings: &Settings, words: &[u32], event: &mut Event) -> Result<(), u32> {
    let mut channels = settings.channels();
    if slip == Descending {
        channels.reverse();
    }
    let wrong_bit = |word: &u32| word / 0x4000000 % 2 == 1;
    if slip == Bit26OfAllFirst && settings.short {
        let all = &words[..channels.len().min(words.len())];
        first_of(&[(23, all.iter().any(wrong_bit))])?;
    }
    for (position, word) in words.iter().enumerate().take(channels.len()) {
        let mut channel = channels[position];
        let mut bits = 32;
        if settings.short {
            first_of(&datum_checks(slip, settings, position, channel, words))?;
            bits = if slip == CountOf25Bits { 25 } else { 26 };
            if slip == ChannelOfDatum {
                channel = (word / 0x8000000) as usize;
            }
        } else if slip == LongOf26Bits {
            bits = 26;
        }
        event.counts[channel] = (u64::from(*word) % (1 << bits)) as u32;
    }
    Ok(())
}

/// Reads an event into `event`, as far as it goes.
fn event(slip: Slip, settings: &Settings, words: &[u32], event: &mut Event) -> Result<usize, u32> {
    let enabled = settings.enable.count_ones();
    let length = enabled as usize + usize::from(settings.header);
    let none = length == 0 || slip == NoneEnabledIs8 && enabled == 0;
    first_of(&[(if slip == NoWordsIs20 { 20 } else { 8 }, none)])?;
    let needed = length + usize::from(slip == OneWordMore);
    let short_body = [(20, words.len() < needed)];
    if slip == ShortBodyFirst {
        first_of(&short_body)?;
    }
    let mut body = words;
    if settings.header {
        first_of(&header_checks(slip, words[0], enabled))?;
        header_fields(slip, words[0], event);
        body = &words[1..];
    }
    if slip != ShortBodyLast {
        first_of(&short_body)?;
    }
    data(slip, settings, body, event)?;
    first_of(&short_body)?;
    let behind = words
        .get(length)
        .map_or(true, |word| word / 0x4000000 % 2 == 1);
    first_of(&[(21, slip == HeaderBehind && settings.header && !behind)])?;
    Ok(length)
}

/// What a reader with a slip gives.
fn read(slip: Slip, settings: &Settings, words: &[u32]) -> Read {
    let mut found = Event::default();
    let header = settings.header;
    match event(slip, settings, words, &mut found) {
        Ok(length) => Read {
            answer: 0,
            length: match slip {
                LengthLessHeader if header && length > 1 => length - 1,
                LengthMore => length + 1,
                _ => length,
            },
            event: found,
        },
        Err(answer) => Read {
            answer,
            length: if slip == RefusedLength {
                settings.length()
            } else {
                0
            },
            event: match slip {
                RefusedHeader => Event {
                    trigger: found.trigger,
                    ..Event::default()
                },
                RefusedCounts => Event {
                    counts: found.counts,
                    ..Event::default()
                },
                _ => Event::default(),
            },
        },
    }
}

/// The `blocks` listing of a reader with a slip.
fn listing(slip: Slip, input: &[u8]) -> Vec<u8> {
    let reader = |settings: &Settings, words: &[u32]| read(slip, settings, words);
    list_blocks(input, End::Whole, &reader).into_bytes()
}

#[test]
fn every_slip_is_caught_by_fixed_and_by_random_inputs() {
    let fixed = fixed_blocks();
    let random = make_blocks(DEFAULT_SEED, DEFAULT_BLOCKS);
    for slip in SLIPS {
        let program = |input: &[u8]| listing(slip, input);
        assert!(caught(&program, &fixed, &own_blocks), "fixed: {:?}", slip);
        assert!(caught(&program, &random, &own_blocks), "random: {:?}", slip);
    }
    let right = |input: &[u8]| listing(Nothing, input);
    assert!(!caught(&right, &fixed, &own_blocks) && !caught(&right, &random, &own_blocks));
}

#[test]
fn a_mismatch_is_shown_and_made_smaller() {
    let verdict = compare_blocks(&|input, _| Ok(listing(AnyBit25, input)), 5, 100);
    assert!(!verdict.agreed);
    for told in [
        "MISMATCH in by hand ",
        "smaller failing input found: 7 bytes: 01 00 00 ",
    ] {
        assert!(verdict.words.contains(told), "{}", verdict.words);
    }
}

#[test]
fn too_few_cases_are_no_agreement() {
    let verdict = compare_blocks(&|input, _| Ok(listing(Nothing, input)), DEFAULT_SEED, 9);
    assert!(!verdict.agreed);
    assert!(
        verdict.words.contains("never occurred: "),
        "{}",
        verdict.words
    );
    assert!(
        verdict.words.contains("too few random inputs"),
        "{}",
        verdict.words
    );
}
