//! Inputs of `trace` of any module that are broken: in their heads, and at the ends of their logs.

use crate::inputs::broken_heads::{every_broken_head, every_cut_head, two_faults};
use crate::inputs::input::Input;
use crate::inputs::logs::whole::ENDS;
use crate::inputs::trace::random::OTHER_MODULES;
use crate::listings::trace_head::{input_of, Head};
use crate::model::module::Call::*;
use crate::model::write_log::numbers_bytes;

/// Heads cut and broken at every number, and those of other modules.
pub fn add_heads(module: &str, head: &Head, inputs: &mut Vec<Input>) {
    let (numbers, limits) = (head.numbers(), head.limits());
    let mut heads = every_cut_head(&numbers);
    heads.extend(every_broken_head(&numbers, limits));
    heads.extend(two_faults(&numbers, limits));
    for other in OTHER_MODULES {
        heads.push([&numbers_bytes(&[other]), &head.bytes()[2..]].concat());
        heads.push(numbers_bytes(&[other]));
    }
    for (number, bytes) in heads.into_iter().enumerate() {
        inputs.push(Input::new(format!("{} bad head {}", module, number), bytes));
    }
}

/// Logs that end in each fault, at once or behind a few entries.
pub fn add_ends(module: &str, head: &Head, inputs: &mut Vec<Input>) {
    for end in ENDS {
        for calls in [&[][..], &[Pulses(0, 1), Read(0x10, 16), Test]] {
            let name = format!("{}, the end {:02X?}", module, end);
            inputs.push(Input::new(name, input_of(head, calls, end)));
        }
    }
}
