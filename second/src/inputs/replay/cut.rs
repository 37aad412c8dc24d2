//! Logs of `replay` that end too early, and logs that COMMAND is fed in pieces.

use crate::inputs::input::Input;
use crate::inputs::replay::fixed::log_of;
use crate::inputs::replay::random::whole_log;
use crate::inputs::rng::Rng;
use crate::inputs::trace::long::{add_runs, EDGE, LONGEST};
use crate::inputs::trace::scripts_v830::every_call;
use crate::listings::replay::replay_head;

/// A log is cut by each number of bytes up to this one.
const MOST_CUT: usize = 20;

/// Logs less each number of their last bytes.
pub fn cut_replays(seed: u64) -> Vec<Input> {
    let mut rng = Rng::new(seed ^ 1);
    let mut inputs = Vec::new();
    let short = [log_of(&every_call()), LONGEST.bytes().repeat(3)].concat();
    let logs = [
        ("the short log", short),
        ("a log of some entries", of_length(&mut rng, 3_000)),
        // The cuts of this one lie on both sides of the edge, and one on it.
        ("a log over the edge", of_length(&mut rng, EDGE + 10)),
        ("a log over two edges", of_length(&mut rng, 2 * EDGE + 10)),
    ];
    for (name, log) in logs {
        for cut in 0..=MOST_CUT {
            let name = format!("{}, less its last {} bytes", name, cut);
            inputs.push(Input::new(name, log[..log.len() - cut].to_vec()));
        }
    }
    inputs
}

/// Good entries of exactly so many bytes, random ones first and the longest ones last.
fn of_length(rng: &mut Rng, length: usize) -> Vec<u8> {
    let last = LONGEST.bytes().repeat(2);
    let mut bytes = Vec::new();
    // A run of random calls is of some hundred bytes, and never of a thousand more.
    add_runs(rng, &replay_head(), 2_000, &mut bytes);
    while bytes.len() + 12 + last.len() < length {
        bytes.extend(LONGEST.bytes());
    }
    bytes.resize(length - last.len(), 2);
    bytes.extend(last);
    bytes
}

/// Logs that COMMAND is fed in pieces: short ones, and longer ones than any buffer.
pub fn logs_in_pieces(seed: u64) -> Vec<Input> {
    let mut rng = Rng::new(seed ^ 2);
    let mut inputs = Vec::new();
    inputs.push(Input::new("no bytes", Vec::new()));
    inputs.push(Input::new("every call", log_of(&every_call())));
    for number in 1..=6 {
        inputs.push(Input::new(
            format!("whole log {}", number),
            whole_log(&mut rng),
        ));
    }
    let longest = LONGEST.bytes().repeat(EDGE / 10 + 20);
    inputs.push(Input::new("the longest entries", longest));
    let log = of_length(&mut rng, 2 * EDGE + 700);
    inputs.push(Input::new("one with a fault", [&log[..], &[8]].concat()));
    inputs.push(Input::new("one that is cut", log[..log.len() - 4].to_vec()));
    inputs.push(Input::new("a log over two edges", log));
    inputs
}

#[cfg(test)]
mod tests {
    use super::*;
    use crate::inputs::rng::DEFAULT_SEED;
    use crate::listings::trace::entries_from;

    #[test]
    fn logs_are_of_their_lengths_and_good() {
        let mut rng = Rng::new(DEFAULT_SEED);
        for length in [3_000, EDGE + 10, 2 * EDGE + 10] {
            let log = of_length(&mut rng, length);
            assert_eq!(log.len(), length);
            let (entries, fault) = entries_from(&log, 0);
            assert_eq!(fault, None);
            let ends: Vec<_> = entries.iter().rev().map(|entry| entry.place).collect();
            assert_eq!(ends[..3], [length, length - 10, length - 20]);
        }
    }
}
