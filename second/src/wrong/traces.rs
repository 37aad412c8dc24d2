//! Tests of `compare trace` itself: modules and listings that are wrong on purpose must be caught,
//! by the fixed inputs and by a share of the random ones.

use crate::compare::trace::{compare_trace, DEFAULT_RUNS};
use crate::inputs::input::Input;
use crate::inputs::rng::DEFAULT_SEED;
use crate::inputs::trace::fixed::fixed_traces;
use crate::inputs::trace::random::make_traces;
use crate::listings::end::End;
use crate::listings::trace::{list_trace, own_trace};
use crate::listings::trace_head::{read_head, HeadSwitches};
use crate::wrong::caught::caught;
use crate::wrong::modules::Wrong;
use crate::wrong::slips::{Of, Of::*, Slip, Slip::*, SLIPS};
use crate::wrong::v830_slips::Slip830;
use crate::wrong::v830_traces::{is_v830, listing_830};

/// So many random runs of each module must catch every slip.
const SHARE: usize = 600;

/// The `trace` listing of a V260 or a V560 with a slip, or of a right V830.
fn listing(slip: Slip, input: &[u8]) -> Vec<u8> {
    if is_v830(input) {
        return listing_830(Slip830::Nothing, input);
    }
    list_trace(input, End::Whole, &|head| Wrong::start(slip, head)).into_bytes()
}

/// The inputs of one module, those with a good head.
fn inputs_of(module: Of, inputs: &[Input]) -> Vec<Input> {
    let wanted = |input: &&Input| match read_head(&input.bytes) {
        Err(_) => false,
        Ok((head, _)) => match head.switches {
            HeadSwitches::V260(_) => module == V260,
            HeadSwitches::V560(_) => module == V560,
            HeadSwitches::V830(_) => false,
        },
    };
    inputs.iter().filter(wanted).cloned().collect()
}

#[test]
fn right_modules_agree() {
    let program = |input: &[u8], _: usize| Ok(listing(Nothing, input));
    let verdict = compare_trace(&program, DEFAULT_SEED, DEFAULT_RUNS);
    assert!(verdict.agreed, "{}", verdict.words);
}

#[test]
fn every_slip_is_caught_by_fixed_and_by_random_inputs() {
    let all = [fixed_traces(), make_traces(DEFAULT_SEED, SHARE)];
    let mut missed = Vec::new();
    for module in [V260, V560] {
        for (name, inputs) in ["fixed", "random"].iter().zip(&all) {
            let inputs = inputs_of(module, inputs);
            for (slip, of) in SLIPS {
                let program = |input: &[u8]| listing(slip, input);
                if (of == Both || of == module) && !caught(&program, &inputs, &own_trace) {
                    missed.push(format!("{:?} {}: {:?}", module, name, slip));
                }
            }
        }
    }
    assert!(missed.is_empty(), "{:#?}", missed);
}

#[test]
fn a_mismatch_is_reported_with_a_small_input_and_its_column() {
    let program = |input: &[u8], _: usize| Ok(listing(NoRoundPast15, input));
    let verdict = compare_trace(&program, DEFAULT_SEED, 5);
    assert!(!verdict.agreed);
    let told = "the first differing number is c0\n";
    assert!(verdict.words.contains(told), "{}", verdict.words);
    // Channel 0 joined, channel 15 at FFFFFF, one pulse on it.
    let mut smallest = "84 02 01 00 00 00".to_string() + &" 00".repeat(15);
    smallest += " FF FF FF 07 00 0F 01\n";
    assert!(verdict.words.contains(&smallest), "{}", verdict.words);
}

#[test]
fn too_few_runs_are_no_agreement() {
    let program = |input: &[u8], _: usize| Ok(own_trace(input).into_bytes());
    let verdict = compare_trace(&program, DEFAULT_SEED, 3);
    assert!(!verdict.agreed);
    let told = "never occurred: V260 carries deep ";
    assert!(verdict.words.contains(told), "{}", verdict.words);
}
