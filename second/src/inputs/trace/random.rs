//! Makes the random inputs of `trace`: whole runs of each module, and broken heads and logs.

use crate::inputs::broken_heads::broken_head;
use crate::inputs::input::Input;
use crate::inputs::logs::entries::{edge_entry, high_kind_entry, odd_entry};
use crate::inputs::logs::random::damage;
use crate::inputs::numbers::any_value;
use crate::inputs::rng::Rng;
use crate::inputs::trace::calls::{arming, next_calls, MOST_PULSES, PROFILES};
use crate::inputs::trace::calls_v830::{next_calls_830, setting_up, PROFILES_830};
use crate::inputs::trace::heads::{head_260, head_560};
use crate::inputs::trace::heads_v830::head_830;
use crate::listings::own_module::{own_start, Own};
use crate::listings::trace::entries_from;
use crate::listings::trace_head::{read_head, Head};
use crate::model::module::{Call, Module};
use crate::model::write_log::shortest;

/// The fewest and the most entries that a whole run has, but for the few that belong together.
const FEWEST_ENTRIES: usize = 60;
const MOST_ENTRIES: usize = 120;

/// Of so many whole runs there is one broken input besides.
const WHOLE_TO_BROKEN: usize = 4;

/// A maker of heads.
type HeadMaker = fn(&mut Rng) -> Head;

/// The name of a module, its maker of heads, and for each two runs asked for how many are made.
pub const HEAD_MAKERS: [(&str, HeadMaker, usize); 3] = [
    ("V260", head_260, 2),
    ("V560", head_560, 2),
    ("V830", head_830, 3),
];

/// Module numbers of no module, some of them a module's once cut to fewer bits.
pub const OTHER_MODULES: [u32; 22] = [
    0,
    1,
    2,
    4,
    48,
    132,
    259,
    261,
    559,
    561,
    62,
    820,
    829,
    831,
    8_300,
    2_600,
    5_600,
    65_796,
    66_096,
    66_366,
    0x8000_0104,
    0xFFFF_FFFF,
];

/// Makes `count` whole runs of each module, or half as many again, and broken inputs besides.
pub fn make_traces(seed: u64, count: usize) -> Vec<Input> {
    let modules = HEAD_MAKERS.iter().zip(0..);
    modules
        .flat_map(|((name, make_head, halves), turn)| {
            let mut rng = Rng::new(seed.wrapping_add(turn));
            module_traces(&mut rng, name, *make_head, count * halves / 2)
        })
        .collect()
}

/// The random inputs of one module.
fn module_traces(rng: &mut Rng, name: &str, make_head: HeadMaker, count: usize) -> Vec<Input> {
    let mut inputs = Vec::new();
    for number in 0..count {
        let head = make_head(rng);
        let entries = rng.between(FEWEST_ENTRIES, MOST_ENTRIES);
        let bytes = whole_run(rng, &head, entries);
        inputs.push(Input::new(format!("{} run {}", name, number), bytes));
    }
    for number in 0..count / WHOLE_TO_BROKEN {
        let (what, bytes) = tame(rng, make_head);
        let name = format!("{} broken input {}, {}", name, number, what);
        inputs.push(Input::new(name, bytes));
    }
    inputs
}

/// A head and a log of at least so many good entries.
pub fn whole_run(rng: &mut Rng, head: &Head, entries: usize) -> Vec<u8> {
    let mut bytes = head.bytes();
    for call in make_calls(rng, head, entries) {
        bytes.extend(call.bytes());
    }
    bytes
}

/// At least so many calls of the module that a head describes.
pub fn make_calls(rng: &mut Rng, head: &Head, entries: usize) -> Vec<Call> {
    match own_start(head).1 {
        Own::Scaler(module) => {
            let profile = rng.pick_by_share(&PROFILES);
            calls_of(module, entries, |module, first| {
                match first && !rng.one_in(5) {
                    true => arming(rng, module.as_ref()),
                    false => next_calls(rng, profile, module.as_ref()),
                }
            })
        }
        Own::V830(module) => {
            let profile = rng.pick_by_share(&PROFILES_830);
            calls_of(*module, entries, |module, first| {
                match first && profile.sets_up && !rng.one_in(5) {
                    true => setting_up(rng, module),
                    false => next_calls_830(rng, profile, module),
                }
            })
        }
    }
}

/// At least so many calls of a module, each few of them made with an eye on what it then holds.
fn calls_of<M: Module>(
    mut module: M,
    entries: usize,
    mut next: impl FnMut(&M, bool) -> Vec<Call>,
) -> Vec<Call> {
    let mut calls = Vec::new();
    while calls.len() < entries {
        for call in next(&module, calls.is_empty()) {
            module.call(call);
            calls.push(call);
        }
    }
    calls
}

/// A way of making a broken input of a module with this head.
type Breaker = fn(&mut Rng, &Head) -> Vec<u8>;

/// The breakers, each with its share of the turns.
const BREAKERS: [(usize, (&str, Breaker)); 9] = [
    (2, ("a head that is cut", cut_head)),
    (4, ("a broken head", bad_head)),
    (1, ("another module", other_module)),
    (4, ("a log cut inside an entry", cut_log)),
    (
        3,
        ("an argument at an edge", |rng, head| {
            faulty_entry(rng, head, edge_entry)
        }),
    ),
    (
        4,
        ("an odd number", |rng, head| {
            faulty_entry(rng, head, odd_entry)
        }),
    ),
    (
        2,
        ("a kind above 7", |rng, head| {
            faulty_entry(rng, head, high_kind_entry)
        }),
    ),
    (4, ("a damaged log", damaged_log)),
    (1, ("noise behind the head", noise)),
];

/// A broken input of a module that gives no channel more pulses than are counted quickly.
pub fn tame(rng: &mut Rng, make_head: HeadMaker) -> (&'static str, Vec<u8>) {
    let (what, breaker) = rng.pick_by_share(&BREAKERS);
    loop {
        let head = make_head(rng);
        let bytes = breaker(rng, &head);
        if is_tame(&bytes) {
            return (what, bytes);
        }
    }
}

/// Whether no channel that may count gets more pulses at once than are counted quickly.
pub fn is_tame(input: &[u8]) -> bool {
    let (head, place) = match read_head(input) {
        Err(_) => return true,
        Ok(head) => head,
    };
    let (entries, _) = entries_from(input, place);
    entries.iter().all(|entry| match Call::of(entry) {
        Call::Pulses(channel, pulses) => {
            pulses <= MOST_PULSES || channel as usize >= head.counts.len()
        }
        _ => true,
    })
}

/// The bytes of a short good log.
fn short_log(rng: &mut Rng, head: &Head) -> Vec<u8> {
    let entries = rng.below(40);
    let calls = make_calls(rng, head, entries);
    calls.iter().flat_map(Call::bytes).collect()
}

/// A head with one or two broken numbers, or cut, and at times a log behind it.
fn bad_head(rng: &mut Rng, head: &Head) -> Vec<u8> {
    let mut bytes = broken_head(rng, &head.numbers(), head.limits());
    if rng.one_in(2) {
        bytes.extend(short_log(rng, head));
    }
    bytes
}

/// A head that is cut in front of a number or inside it.
fn cut_head(rng: &mut Rng, head: &Head) -> Vec<u8> {
    let mut bytes = head.bytes();
    bytes.truncate(rng.below(bytes.len()));
    bytes
}

/// A head that names another module, and a log behind it.
fn other_module(rng: &mut Rng, head: &Head) -> Vec<u8> {
    let module = match any_value(rng) {
        260 | 560 | 830 => 0,
        module if rng.one_in(2) => module,
        _ => rng.pick(&OTHER_MODULES),
    };
    let rest = &head.bytes()[2..];
    [&shortest(module), rest, &short_log(rng, head)].concat()
}

/// A log whose last entry is cut.
fn cut_log(rng: &mut Rng, head: &Head) -> Vec<u8> {
    let mut bytes = head.bytes();
    bytes.extend(short_log(rng, head));
    let last = Call::Write(0x06, 16, rng.between(128, 65_535) as u32).bytes();
    bytes.extend(&last[..rng.between(1, last.len() - 1)]);
    bytes
}

/// Good entries, one that is or may be faulty, and good ones again.
fn faulty_entry(rng: &mut Rng, head: &Head, faulty: fn(&mut Rng) -> Vec<u8>) -> Vec<u8> {
    let before = short_log(rng, head);
    let entry = faulty(rng);
    [head.bytes(), before, entry, short_log(rng, head)].concat()
}

/// A log with bytes changed, inserted and removed.
fn damaged_log(rng: &mut Rng, head: &Head) -> Vec<u8> {
    let mut log = short_log(rng, head);
    for _ in 0..rng.between(1, 4) {
        damage(rng, &mut log);
    }
    [head.bytes(), log].concat()
}

/// Any bytes at all behind a head.
fn noise(rng: &mut Rng, head: &Head) -> Vec<u8> {
    let mut bytes = head.bytes();
    for _ in 0..rng.below(30) {
        bytes.push(rng.byte());
    }
    bytes
}

#[cfg(test)]
mod tests {
    use super::*;

    #[test]
    fn a_seed_repeats_its_runs_and_another_differs() {
        assert_eq!(make_traces(7, 20), make_traces(7, 20));
        assert_ne!(make_traces(7, 20), make_traces(8, 20));
        assert_eq!(make_traces(7, 20).len(), 2 * (20 + 5) + 30 + 7);
    }

    #[test]
    fn every_run_is_long_and_tame() {
        for input in make_traces(7, 40) {
            assert!(is_tame(&input.bytes), "{}", input.name);
            if input.name.contains(" run ") {
                let (_, place) = read_head(&input.bytes).expect("a good head");
                let (entries, fault) = entries_from(&input.bytes, place);
                assert!((60..=160).contains(&entries.len()), "{}", input.name);
                assert_eq!(fault, None);
            }
        }
    }
}
