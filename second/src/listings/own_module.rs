//! This program's own modules, as the head of a trace starts them.

use crate::listings::trace_head::{Head, HeadSwitches};
use crate::model::module::{Call, Given, Module};
use crate::model::scaler::Scaler;
use crate::model::v260::{Switches, V260};
use crate::model::v560::V560;
use crate::model::v830::V830;

/// A module of this program's own.
pub enum Own {
    /// A V260 or a V560.
    Scaler(Box<dyn Scaler>),
    V830(Box<V830>),
}

impl Own {
    /// Itself as a module.
    fn module(&self) -> &dyn Module {
        match self {
            Own::Scaler(scaler) => scaler,
            Own::V830(module) => module.as_ref(),
        }
    }

    /// The V260 or V560 that it is.
    #[cfg(test)]
    pub fn into_scaler(self) -> Option<Box<dyn Scaler>> {
        match self {
            Own::Scaler(scaler) => Some(scaler),
            Own::V830(_) => None,
        }
    }
}

impl Module for Own {
    /// Does what the call asks for.
    fn call(&mut self, call: Call) -> Given {
        match self {
            Own::Scaler(scaler) => scaler.call(call),
            Own::V830(module) => module.call(call),
        }
    }

    /// The module's columns.
    fn columns(&self) -> Vec<u32> {
        self.module().columns()
    }

    /// The words lent to it, if it is a V830.
    fn memory(&self) -> Option<&[u32]> {
        self.module().memory()
    }
}

/// The words lent to a V830 at first: 1, 2, 3 ..
pub fn lent_words(capacity: u32) -> Vec<u32> {
    (1..=capacity).collect()
}

/// The module of a head as this program's own start gives it, the head's counts put in.
pub fn own_start(head: &Head) -> (Given, Own) {
    match head.switches {
        HeadSwitches::V260([joined, interrupts, jumpers, level]) => {
            let switches = Switches {
                joined,
                interrupts,
                jp18: jumpers & 1 == 1,
                jp17: jumpers & 2 == 2,
            };
            with_counts(V260::start(switches, level), &head.counts)
        }
        HeadSwitches::V560([joined]) => with_counts(V560::start(joined), &head.counts),
        HeadSwitches::V830([geo, capacity]) => {
            let (given, mut module) = V830::start(geo, lent_words(capacity));
            module.record.counts.copy_from_slice(&head.counts);
            (given, Own::V830(Box::new(module)))
        }
    }
}

/// A started V260 or V560 with these counts put in.
fn with_counts<S: Scaler + 'static>(started: (Given, S), counts: &[u32]) -> (Given, Own) {
    let (given, mut module) = started;
    module.held_mut().counts.copy_from_slice(counts);
    (given, Own::Scaler(Box::new(module)))
}
