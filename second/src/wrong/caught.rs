//! Whether a wrong program is caught.

use crate::compare::runs::{first_failing_input, Lister};
use crate::inputs::input::Input;

/// Whether a program differs from this one on some of the inputs.
pub fn caught(
    program: &(dyn Fn(&[u8]) -> Vec<u8> + Sync),
    inputs: &[Input],
    list: &Lister,
) -> bool {
    let program = |input: &[u8], _: usize| Ok(program(input));
    first_failing_input(&program, inputs, list).is_some()
}
