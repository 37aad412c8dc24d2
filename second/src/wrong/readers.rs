//! Tests of the comparison itself: readers that are wrong on purpose must be caught, and their
//! failing input shrunk to the shortest one, which is written here by hand.

use crate::compare::failing::{first_failing, Failing};
use crate::compare::logs::compare_logs;
use crate::compare::run::Trouble;
use crate::compare::shrink::shrink;
use crate::inputs::logs::case::Case;
use crate::inputs::logs::random::make_cases;
use crate::inputs::rng::DEFAULT_SEED;
use crate::listings::end::End;
use crate::listings::logs::{list_cases, Reader};
use crate::model::log::{Entry, Number};

/// The one thing that a wrong reader does wrong.
#[derive(Clone, Copy, Debug, PartialEq)]
enum Slip {
    Nothing,
    AnyForm,
    FifthByteWraps,
    SixthByte,
    Channel32,
    Line2,
    Offset65536,
    Width17,
    AnyData,
    Kind8,
    KindOf8Bits,
    RangesLast,
    FaultPlace,
    EndPlace,
}

use Slip::*;

/// Each slip and the shortest case that shows it: the start and the bytes.
const SHOWN_BY: [(Slip, usize, &[u8]); 13] = [
    (AnyForm, 0, &[0x80, 0x00]),
    (FifthByteWraps, 0, &[0x80, 0x80, 0x80, 0x80, 0x10]),
    (SixthByte, 0, &[0x80, 0x80, 0x80, 0x80, 0x80]),
    (Channel32, 0, &[0x00, 0x20]),
    (Line2, 0, &[0x01, 0x02]),
    (Offset65536, 0, &[0x05, 0x80, 0x80, 0x04]),
    (Width17, 0, &[0x05, 0x00, 0x11]),
    (AnyData, 0, &[0x06, 0x00, 0x10, 0x80, 0x80, 0x04]),
    (Kind8, 0, &[0x08]),
    (KindOf8Bits, 0, &[0x80, 0x02]),
    (RangesLast, 0, &[0x00, 0x20]),
    (FaultPlace, 0, &[0x00]),
    (EndPlace, 1, &[]),
];

/// Reads a number with a slip; a fault comes with the place of the number.
fn number(slip: Slip, bytes: &[u8], place: usize) -> Result<(u32, usize), (u32, usize)> {
    let mut value: u64 = 0;
    for (group, byte) in bytes.iter().skip(place).enumerate() {
        let too_large = match slip {
            FifthByteWraps => group == 4 && *byte >= 0x80,
            SixthByte => group == 5 || group == 4 && (0x10..0x80).contains(byte),
            _ => group == 4 && *byte >= 0x10,
        };
        if too_large {
            return Err((32, place));
        }
        value += u64::from(byte % 128) << (7 * group);
        if *byte < 128 {
            let short = *byte != 0 || group == 0 || slip == AnyForm;
            let after = place + group + 1;
            return if short {
                Ok((value as u32, after))
            } else {
                Err((31, place))
            };
        }
    }
    let place = if slip == EndPlace {
        place.min(bytes.len())
    } else {
        place
    };
    Err((30, place))
}

/// Whether an argument's value is in its range, given the width before it.
type Range = Box<dyn Fn(u32, u32) -> bool>;

/// The ranges of a kind's arguments with a slip.
fn ranges(slip: Slip, kind: u32) -> Option<Vec<Range>> {
    let offset = move |value, _| value < 65_536 || slip == Offset65536 && value == 65_536;
    let width = move |value, _| value == 16 || value == 32 || slip == Width17 && value == 17;
    let data = move |value, width| width == 32 || value < 65_536 || slip == AnyData;
    Some(match kind {
        0 => vec![
            Box::new(move |value, _| value < if slip == Channel32 { 33 } else { 32 }),
            Box::new(|_, _| true),
        ],
        1 => vec![Box::new(move |value, _| {
            value < if slip == Line2 { 3 } else { 2 }
        })],
        2 | 3 | 4 | 7 => vec![],
        5 => vec![Box::new(offset), Box::new(width)],
        6 => vec![Box::new(offset), Box::new(width), Box::new(data)],
        8 if slip == Kind8 => vec![],
        _ => return None,
    })
}

/// Reads an entry with a slip; a fault comes with the place at which it was found.
fn entry(slip: Slip, bytes: &[u8], place: usize) -> Result<Entry, (u32, usize)> {
    let (mut kind, mut next) = number(slip, bytes, place)?;
    if slip == KindOf8Bits {
        kind %= 256;
    }
    let mut arguments = [0; 3];
    let mut fault = Ok(());
    for (position, holds) in ranges(slip, kind).ok_or((33, place))?.iter().enumerate() {
        let (value, after) = number(slip, bytes, next)?;
        if !holds(value, arguments[1]) {
            fault = Err((34, next));
        }
        if slip != RangesLast {
            fault?;
        }
        arguments[position] = value;
        next = after;
    }
    let answer = 0;
    let place = next;
    fault.map(|()| Entry {
        answer,
        kind,
        arguments,
        place,
    })
}

/// The `logcases` listing of a reader with a slip.
fn listing(slip: Slip, input: &[u8]) -> Vec<u8> {
    let given = |found: usize, place: usize| match slip {
        FaultPlace => found,
        EndPlace => found.min(place),
        _ => place,
    };
    let number = |bytes: &[u8], place: usize| match number(slip, bytes, place) {
        Ok((value, place)) => Number {
            answer: 0,
            value,
            place,
        },
        Err((answer, found)) => Number::refused(answer, given(found, place)),
    };
    let entry = |bytes: &[u8], place: usize| {
        entry(slip, bytes, place)
            .unwrap_or_else(|(answer, found)| Entry::refused(answer, given(found, place)))
    };
    let (number, entry) = (&number, &entry);
    list_cases(input, End::Whole, &Reader { number, entry }).into_bytes()
}

/// The first failing one of these cases, which must exist.
fn must_fail(program: &crate::compare::run::Program, cases: &[Case], what: &str) -> Failing {
    first_failing(program, cases)
        .expect("a program that runs")
        .unwrap_or_else(|| panic!("{} is not caught", what))
}

#[test]
fn a_right_reader_agrees() {
    let verdict = compare_logs(&|input, _| Ok(listing(Nothing, input)), DEFAULT_SEED, 3_000);
    assert!(verdict.agreed, "{}", verdict.words);
}

#[test]
fn every_slip_is_caught_by_random_cases_and_shrunk() {
    let cases = make_cases(DEFAULT_SEED, 24_000);
    for (slip, start, bytes) in SHOWN_BY {
        let program = |input: &[u8], _: usize| Ok(listing(slip, input));
        let failing = must_fail(&program, &cases, &format!("{:?}", slip));
        assert!(failing.alone, "{:?}", slip);
        let shortest = shrink(&program, &cases[failing.index]);
        assert_eq!(shortest, Ok(Case::new(start, bytes)), "{:?}", slip);
    }
}

#[test]
fn a_mismatch_is_reported_with_the_shortest_input() {
    let verdict = compare_logs(&|input, _| Ok(listing(Channel32, input)), 5, 100);
    assert!(!verdict.agreed);
    let told = "shortest failing input found: start 0, 2 bytes: 00 20\n";
    assert!(verdict.words.contains(told), "{}", verdict.words);
    assert!(
        verdict.words.contains("34 0 0 0 0 0 0 0 1\n"),
        "{}",
        verdict.words
    );
}

#[test]
fn a_program_that_dies_is_caught_and_shrunk() {
    let program = |input: &[u8], _: usize| {
        if input.contains(&0x77) {
            return Err(Trouble::Died("it died".to_string()));
        }
        Ok(listing(Nothing, input))
    };
    let cases = [
        Case::new(0, &[2, 3]),
        Case::new(0, &[2, 0x77, 1]),
        Case::new(0, &[4]),
    ];
    let failing = must_fail(&program, &cases, "a death");
    assert_eq!((failing.index, failing.alone), (1, true));
    let shortest = shrink(&program, &cases[1]);
    assert_eq!(shortest, Ok(Case::new(0, &[0x77])));
}

#[test]
fn a_line_too_many_is_blamed_on_its_own_case() {
    let program = |input: &[u8], _: usize| {
        let right = String::from_utf8(listing(Nothing, input)).expect("text");
        Ok(right
            .replace(
                "33 0 0 0 0 0 0 8 1\n",
                "33 0 0 0 0 0 0 8 1\n33 0 0 0 0 0 0 8 1\n",
            )
            .into_bytes())
    };
    let cases = [Case::new(0, &[2]), Case::new(0, &[8]), Case::new(0, &[3])];
    let failing = must_fail(&program, &cases, "a line too many");
    assert_eq!((failing.index, failing.alone), (1, true));
}

#[test]
fn a_failure_in_company_only_is_said_to_be_one() {
    let program = |input: &[u8], _: usize| {
        let mut listing = listing(Nothing, input);
        if listing.len() > 300 {
            listing[299] ^= 1;
        }
        Ok(listing)
    };
    let verdict = compare_logs(&program, 5, 100);
    assert!(!verdict.agreed);
    assert!(
        verdict.words.contains("only among others"),
        "{}",
        verdict.words
    );
}

#[test]
fn too_few_cases_are_no_agreement() {
    let verdict = compare_logs(&|input, _| Ok(listing(Nothing, input)), DEFAULT_SEED, 3);
    assert!(!verdict.agreed);
    assert!(
        verdict.words.contains("never occurred"),
        "{}",
        verdict.words
    );
}
