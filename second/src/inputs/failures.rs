//! Inputs that a failed read cuts: of each kind, short ones cut at every byte, random ones cut anywhere, and
//! ones cut about a buffer's edge.

use crate::inputs::blocks::random::{input_of as capture_of, make_blocks};
use crate::inputs::input::Input;
use crate::inputs::logs::case::{frame, Case};
use crate::inputs::logs::entries::good_log;
use crate::inputs::logs::random::make_cases;
use crate::inputs::makeblock::random::make_requests;
use crate::inputs::replay::fixed::log_of;
use crate::inputs::replay::random::make_replays;
use crate::inputs::rng::Rng;
use crate::inputs::trace::long::{EDGE, LONGEST};
use crate::inputs::trace::random::make_traces;
use crate::inputs::trace::scripts_v830::set_up;
use crate::listings::kind::Kind;
use crate::listings::trace_head::{input_of, v260, v560, v830};
use crate::model::block::Settings;
use crate::model::module::Call::{self, *};
use crate::model::write_log::numbers_bytes;

/// So many random inputs of a kind are cut.
const RANDOM: usize = 120;
/// So many random cases of `logcases` make one input.
const CASES: usize = 4;
/// Half of the random inputs are cut so near to their ends.
const NEAR_END: usize = 12;

/// A wrong datum of document 01's event: its channel is 3.
const WRONG_DATUM: u32 = 0x1800_0009;

/// The inputs of a kind, each as it is when the failure comes.
pub fn failing_inputs(kind: Kind, seed: u64) -> Vec<Input> {
    let mut inputs = Vec::new();
    for (number, bytes) in short_inputs(kind).into_iter().enumerate() {
        for length in 0..=bytes.len() {
            let name = format!("short input {}, its first {} bytes", number, length);
            inputs.push(Input::new(name, bytes[..length].to_vec()));
        }
    }
    let mut rng = Rng::new(seed);
    for input in random_inputs(kind, &mut rng) {
        let (name, mut bytes) = (input.name, input.bytes);
        let nearest = if rng.one_in(2) {
            bytes.len().saturating_sub(NEAR_END)
        } else {
            0
        };
        bytes.truncate(rng.between(nearest, bytes.len()));
        inputs.push(Input::new(
            format!("{}, its first {} bytes", name, bytes.len()),
            bytes,
        ));
    }
    if let Some(bytes) = long_input(kind) {
        for length in [EDGE - 1, EDGE, EDGE + 1, EDGE + 7, bytes.len()] {
            let name = format!("the long input, its first {} bytes", length);
            inputs.push(Input::new(name, bytes[..length].to_vec()));
        }
    }
    inputs
}

/// Good entries of every kind, and one of ten bytes.
fn every_kind() -> Vec<Call> {
    let mut calls = set_up(5, 0xA1);
    calls.extend([
        Pulses(0, 300),
        VetoLine(true),
        VetoLine(false),
        Test,
        ClearLine,
    ]);
    calls.extend([Trigger, Read(0x1128, 32), LONGEST, ManClr]);
    calls
}

/// Inputs that are cut at every byte.
fn short_inputs(kind: Kind) -> Vec<Vec<u8>> {
    let faulty = |place: &[u8]| [log_of(&[Pulses(31, 1 << 21), Test]), place.to_vec()].concat();
    match kind {
        Kind::Logs => {
            let cases = [
                Case::new(0, &[2, 0, 31, 0xAC, 2, 8]),
                Case::new(300, &[]),
                Case::new(1, &[7, 1, 1]),
            ];
            vec![
                framed(&cases),
                [framed(&cases[..1]), vec![0x80, 0]].concat(),
            ]
        }
        Kind::Entries | Kind::Replay => vec![
            log_of(&every_kind()),
            faulty(&[6, 0, 17, 2]),
            faulty(&[0x85, 0, 2]),
            faulty(&[8, 2]),
        ],
        Kind::Blocks => short_captures(),
        Kind::Makeblock => {
            let mut numbers = [0; 39];
            numbers[..8].copy_from_slice(&[1, 0, 0x8000_0001, 3, 31, 3, 65_535, 300]);
            numbers[38] = u32::MAX;
            let good = numbers_bytes(&numbers);
            numbers[3] = 65;
            vec![
                [&good[..], &[0x80, 0]].concat(),
                numbers_bytes(&numbers[..5]),
            ]
        }
        Kind::Trace => vec![
            input_of(&v260([0x30, 0xFFFF, 3, 5], [300; 16]), &every_kind(), &[]),
            input_of(
                &v560(0xFF, [u32::MAX; 16]),
                &[Pulses(1, 2), Test],
                &[5, 0, 17],
            ),
            input_of(&v830(1, 300, 200), &every_kind(), &[]),
            input_of(&v830(32, 3, 0), &[Trigger, Test], &[8, 2]),
        ],
    }
}

/// Captures: of document 01's event whole and wrong in its header and in a datum, and of events of no words.
fn short_captures() -> Vec<Vec<u8>> {
    let settings = |header, short, enable| Settings {
        header,
        short,
        enable,
    };
    let event = [0x0C08_0001, 7, 0x1000_0009];
    let behind = |words: &[u32]| [&event[..], words].concat();
    let marked = settings(true, true, 5);
    vec![
        capture_of(&marked, &behind(&[event[0], 7, WRONG_DATUM, 0])),
        capture_of(&marked, &behind(&[event[0] | 1 << 24, 7, 9, 0])),
        capture_of(&settings(false, false, 1 << 31 | 1), &behind(&event)),
        capture_of(&settings(false, true, 0), &event),
    ]
}

/// The cases as one input of `logcases`.
fn framed(cases: &[Case]) -> Vec<u8> {
    let mut input = Vec::new();
    cases.iter().for_each(|case| frame(&mut input, case));
    input
}

/// Random inputs of a kind, good ones and broken ones.
fn random_inputs(kind: Kind, rng: &mut Rng) -> Vec<Input> {
    let seed = rng.word();
    let some = |mut inputs: Vec<Input>, rng: &mut Rng| -> Vec<Input> {
        (0..RANDOM)
            .map(|_| inputs.swap_remove(rng.below(inputs.len())))
            .collect()
    };
    let numbered = |(number, bytes)| Input::new(format!("random input {}", number), bytes);
    match kind {
        Kind::Logs => {
            let cases = make_cases(seed, CASES * RANDOM);
            cases
                .chunks(CASES)
                .map(framed)
                .enumerate()
                .map(numbered)
                .collect()
        }
        Kind::Entries => {
            let logs = (0..RANDOM).map(|entries| good_log(rng, entries % 20));
            logs.enumerate().map(numbered).collect()
        }
        Kind::Blocks => make_blocks(seed, RANDOM),
        Kind::Makeblock => make_requests(seed, RANDOM),
        Kind::Trace => some(make_traces(seed, RANDOM), rng),
        Kind::Replay => some(make_replays(seed, RANDOM), rng),
    }
}

/// An input longer than a buffer, of the kinds that have such.
fn long_input(kind: Kind) -> Option<Vec<u8>> {
    let log = || LONGEST.bytes().repeat(EDGE / 10 + 20);
    match kind {
        Kind::Logs => Some(framed(&vec![Case::new(0, &log()[..1_000]); 66])),
        Kind::Entries | Kind::Replay => Some(log()),
        Kind::Blocks => {
            let settings = Settings {
                header: false,
                short: false,
                enable: u32::MAX,
            };
            Some(capture_of(
                &settings,
                &[0x0123_4567; 32].repeat(EDGE / 128 + 2),
            ))
        }
        Kind::Makeblock => None,
        Kind::Trace => Some([v830(1, 3, 0).bytes(), log()].concat()),
    }
}
