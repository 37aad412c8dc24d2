//! Tests of `compare trace` itself: V830s that are wrong on purpose must be caught, by the listings
//! of the fixed inputs and of a share of the random ones, and some by the ledger alone.

use crate::compare::ledger::books::audit_listing;
use crate::compare::trace::compare_trace;
use crate::inputs::input::Input;
use crate::inputs::rng::DEFAULT_SEED;
use crate::inputs::trace::fixed_v830::fixed_v830_traces;
use crate::inputs::trace::long::long_traces;
use crate::inputs::trace::random::make_traces;
use crate::listings::end::End;
use crate::listings::trace::{list_trace, own_trace};
use crate::listings::trace_head::{read_head, HeadSwitches};
use crate::wrong::caught::caught;
use crate::wrong::v830::Wrong830;
use crate::wrong::v830_slips::{caught_by, By, Slip830, Slip830::*, SLIPS_830};

/// So many runs asked for, and half as many again of the V830, must catch every slip.
const SHARE: usize = 600;

/// The `trace` listing of a V830 with a slip.
pub fn listing_830(slip: Slip830, input: &[u8]) -> Vec<u8> {
    list_trace(input, End::Whole, &|head| Wrong830::start(slip, head)).into_bytes()
}

/// Whether an input has a good head of a V830.
pub fn is_v830(input: &[u8]) -> bool {
    match read_head(input) {
        Ok((head, _)) => matches!(head.switches, HeadSwitches::V830(_)),
        Err(_) => false,
    }
}

/// The inputs of a V830 with a good head.
fn of_v830(mut inputs: Vec<Input>) -> Vec<Input> {
    inputs.retain(|input| is_v830(&input.bytes));
    inputs
}

/// The fixed, the random and the long inputs.
fn all_inputs() -> [(&'static str, Vec<Input>); 3] {
    [
        ("fixed", of_v830(fixed_v830_traces())),
        ("random", of_v830(make_traces(DEFAULT_SEED, SHARE))),
        ("long", of_v830(long_traces(DEFAULT_SEED))),
    ]
}

#[test]
fn a_right_v830_agrees() {
    for (name, inputs) in all_inputs() {
        let program = |input: &[u8]| listing_830(Nothing, input);
        assert!(!caught(&program, &inputs, &own_trace), "{}", name);
    }
}

#[test]
fn every_slip_is_caught() {
    let [fixed, random, long] = all_inputs();
    let mut missed = Vec::new();
    for &slip in SLIPS_830 {
        let wanted = match caught_by(slip) {
            By::Both => vec![&fixed, &random],
            By::Fixed => vec![&fixed],
            By::Long => vec![&long],
        };
        for (name, inputs) in wanted {
            let program = |input: &[u8]| listing_830(slip, input);
            if !caught(&program, inputs, &own_trace) {
                missed.push(format!("{}: {:?}", name, slip));
            }
        }
    }
    assert!(missed.is_empty(), "{:#?}", missed);
}

/// Slips that make words or pulses come out wrong, which the ledger finds without another listing.
const LEDGER_SLIPS: [Slip830; 38] = [
    DisabledDoNotCount,
    VetoStopsTest,
    VetoIgnored,
    FirstPulseOnly,
    TestWithout31,
    RefusedControlClears,
    RefusedControlResets,
    SetReplaces,
    ControlKeepsCounters,
    ControlKeepsTriggers,
    ControlKeepsWords,
    ModesSwapped,
    ControlLiftsVeto,
    ResetKeepsEnable,
    ResetLiftsVeto,
    EnableZeroesCounters,
    NeglectedResets,
    NeglectedCounts,
    DisabledTriggerCounts,
    ResetBeforeTaking,
    AutoResetOfEnabledOnly,
    AutoResetNever,
    AutoResetClearsTriggers,
    NumberBeforeCount,
    SourcesSwapped,
    HeaderCountOfWords,
    HeaderWithoutGeo,
    DataDescending,
    ShortChannelByTurns,
    FormatSwapped,
    TestModeStoresZeros,
    FullOneEarly,
    OverwritesOldest,
    FreedNotReused,
    NoWrapInEvent,
    NewestFirst,
    ReadLeaves,
    EmptyReadIsGood,
];

#[test]
fn the_ledger_alone_finds_what_does_not_balance() {
    let [fixed, random, _] = all_inputs();
    let inputs = [fixed.1, random.1].concat();
    let complains = |slip: Slip830| {
        let mut audits = inputs
            .iter()
            .map(|input| audit_listing(&input.bytes, &listing_830(slip, &input.bytes)));
        audits.find_map(Result::err)
    };
    assert_eq!(complains(Nothing), None);
    let missed: Vec<_> = LEDGER_SLIPS
        .into_iter()
        .filter(|slip| complains(*slip).is_none())
        .collect();
    assert!(missed.is_empty(), "{:#?}", missed);
}

#[test]
fn a_mismatch_is_reported_with_a_small_input_and_its_column() {
    let program = |input: &[u8], _: usize| {
        Ok(match is_v830(input) {
            true => listing_830(NeglectedResets, input),
            false => own_trace(input).into_bytes(),
        })
    };
    let verdict = compare_trace(&program, DEFAULT_SEED, 5);
    assert!(!verdict.agreed);
    let told = "the first differing number is c";
    assert!(verdict.words.contains(told), "{}", verdict.words);
}
