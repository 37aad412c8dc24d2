//! Makes a failing input of `trace` smaller: fewer entries, plainer heads, fewer pulses.

use crate::compare::shrink::{smaller_inputs, stretches};
use crate::listings::replay::replay_head;
use crate::listings::trace::entries_from;
use crate::listings::trace_head::{input_of, read_head, Head, HeadSwitches};
use crate::model::module::Call;

/// The inputs one step below an input: less entries, the most first, then plainer ones.
pub fn smaller_traces(input: &[u8]) -> Vec<Vec<u8>> {
    let (head, place) = match read_head(input) {
        Err(_) => return smaller_inputs(input),
        Ok(head) => head,
    };
    let (entries, fault) = entries_from(input, place);
    let calls: Vec<Call> = entries.iter().map(Call::of).collect();
    let rest = fault.map_or(&input[..0], |(_, place)| &input[place..]);
    let mut all = Vec::new();
    if !rest.is_empty() {
        all.push(input_of(&head, &calls, &[]));
    }
    let mut removed = stretches(calls.len());
    removed.sort_by_key(|(from, to)| from + calls.len() - to);
    for (from, to) in removed {
        let kept = [&calls[..from], &calls[to..]].concat();
        all.push(input_of(&head, &kept, rest));
    }
    for plainer in plainer_heads(&head) {
        all.push(input_of(&plainer, &calls, rest));
    }
    for at in 0..calls.len() {
        if let Call::Pulses(channel, 2..) = calls[at] {
            let mut fewer = calls.clone();
            fewer[at] = Call::Pulses(channel, 1);
            all.push(input_of(&head, &fewer, rest));
        }
    }
    all
}

/// The logs of `replay` one step below a log: the traces below it that begin as it does.
pub fn smaller_replays(log: &[u8]) -> Vec<Vec<u8>> {
    let head = replay_head().bytes();
    let traces = smaller_traces(&[&head, log].concat());
    let logs = traces
        .iter()
        .filter_map(|input| input.strip_prefix(&head[..]));
    logs.map(<[u8]>::to_vec).collect()
}

/// The head with all counts 0, with one of them 0, and with fewer switches.
fn plainer_heads(head: &Head) -> Vec<Head> {
    let mut all = Vec::new();
    if head.counts.iter().filter(|count| **count != 0).count() > 1 {
        all.push(Head {
            counts: vec![0; head.counts.len()],
            ..head.clone()
        });
    }
    for (channel, _) in head
        .counts
        .iter()
        .enumerate()
        .filter(|(_, count)| **count != 0)
    {
        let mut plainer = head.clone();
        plainer.counts[channel] = 0;
        all.push(plainer);
    }
    let fewer = match &head.switches {
        HeadSwitches::V260(switches) => fewer_switches(switches, HeadSwitches::V260),
        HeadSwitches::V560(switches) => fewer_switches(switches, HeadSwitches::V560),
        HeadSwitches::V830(switches) => fewer_switches(switches, HeadSwitches::V830),
    };
    all.extend(fewer.into_iter().map(|switches| Head {
        switches,
        ..head.clone()
    }));
    all
}

/// The switches of a module with one of them 0, or less one of its bits.
fn fewer_switches<const N: usize>(
    switches: &[u32; N],
    module: fn([u32; N]) -> HeadSwitches,
) -> Vec<HeadSwitches> {
    lower_numbers(switches).into_iter().map(module).collect()
}

/// The numbers with one of them 0, or less one of its bits.
fn lower_numbers<const N: usize>(numbers: &[u32; N]) -> Vec<[u32; N]> {
    let mut all = Vec::new();
    for (position, number) in numbers
        .iter()
        .enumerate()
        .filter(|(_, number)| **number != 0)
    {
        let bits = (0..32).map(|bit| number & !(1 << bit));
        for lower in std::iter::once(0).chain(bits.filter(|lower| lower != number)) {
            let mut with_lower = *numbers;
            with_lower[position] = lower;
            all.push(with_lower);
        }
    }
    all.dedup();
    all
}

#[cfg(test)]
mod tests {
    use super::*;
    use crate::compare::shrink::shrink_input;

    #[test]
    fn a_long_failing_input_is_made_small() {
        let head = Head {
            switches: HeadSwitches::V260([0x30, 0xFFFF, 3, 5]),
            counts: vec![9; 16],
        };
        let mut calls = vec![Call::Pulses(3, 70); 100];
        calls[60] = Call::Read(0x12, 16);
        let failing = input_of(&head, &calls, &[0x80]);
        // It fails if channel 5 is joined and a lower half is read behind some pulses on channel 3.
        let fails = |bytes: &[u8]| {
            let (head, place) = read_head(bytes).expect("a good head");
            let (entries, _) = entries_from(bytes, place);
            let calls: Vec<Call> = entries.iter().map(Call::of).collect();
            let read = calls.iter().position(|call| *call == Call::Read(0x12, 16));
            let joined =
                matches!(head.switches, HeadSwitches::V260([joined, ..]) if joined & 0x20 != 0);
            joined && read.map_or(false, |at| at > 0)
        };
        let smallest = Head {
            switches: HeadSwitches::V260([0x20, 0, 0, 0]),
            counts: vec![0; 16],
        };
        let expected = [Call::Pulses(3, 1), Call::Read(0x12, 16)];
        assert_eq!(
            shrink_input(&fails, &failing, 300, smaller_traces),
            input_of(&smallest, &expected, &[])
        );
    }

    #[test]
    fn a_long_failing_log_of_replay_is_made_small() {
        let mut log = Call::Pulses(3, 70).bytes().repeat(100);
        log.extend([7, 2, 8]);
        let fails = |log: &[u8]| {
            let (entries, _) = entries_from(log, 0);
            let calls: Vec<Call> = entries.iter().map(Call::of).collect();
            let button = calls.iter().position(|call| *call == Call::ManClr);
            button.map_or(false, |at| at > 0)
        };
        let smallest = shrink_input(&fails, &log, 300, smaller_replays);
        assert_eq!(smallest, [0, 3, 1, 7]);
    }
}
