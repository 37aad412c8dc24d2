//! The head of an input of `trace`: which module, its switches and its counts.

use crate::listings::head::head_numbers;
use crate::model::log::number_at;
use crate::model::module::Call;
use crate::model::write_log::numbers_bytes;
use crate::model::{block, scaler};

/// Line 1 of a V260's trace, as docs/FORMATS.md writes it down.
pub const TITLE_260: &str = "entry answer value enabled requested level vector line vme \
c0 c1 c2 c3 c4 c5 c6 c7 c8 c9 c10 c11 c12 c13 c14 c15 \
l0 l1 l2 l3 l4 l5 l6 l7 l8 l9 l10 l11 l12 l13 l14 l15\n";

/// Line 1 of a V560's trace.
pub const TITLE_560: &str = "entry answer value enabled requested level vector line vme \
sections latch \
c0 c1 c2 c3 c4 c5 c6 c7 c8 c9 c10 c11 c12 c13 c14 c15 \
l0 l1 l2 l3 l4 l5 l6 l7 l8 l9 l10 l11 l12 l13 l14 l15\n";

/// Line 1 of a V830's trace.
pub const TITLE_830: &str = "entry answer value geo control enable triggers veto \
capacity first stored \
c0 c1 c2 c3 c4 c5 c6 c7 c8 c9 c10 c11 c12 c13 c14 c15 \
c16 c17 c18 c19 c20 c21 c22 c23 c24 c25 c26 c27 c28 c29 c30 c31\n";

/// The fault of a head that names another module.
const OTHER_MODULE: u32 = 33;

/// The largest switches of each module, behind its number in the head.
pub const LARGEST_SWITCHES_260: [u32; 4] = [0xFFFF, 0xFFFF, 3, u32::MAX];
pub const LARGEST_SWITCHES_560: [u32; 1] = [0xFF];
pub const LARGEST_SWITCHES_830: [u32; 2] = [u32::MAX, 40_000];

/// The positions in a head and the largest values of its limited numbers.
const LIMITS_260: [(usize, u32); 3] = [(1, 0xFFFF), (2, 0xFFFF), (3, 3)];
const LIMITS_560: [(usize, u32); 1] = [(1, 0xFF)];
const LIMITS_830: [(usize, u32); 1] = [(2, 40_000)];

/// A good head: the module, its switches in the head's order, and the counts.
#[derive(Clone, Debug, PartialEq, Eq)]
pub struct Head {
    pub switches: HeadSwitches,
    pub counts: Vec<u32>,
}

/// The module that a head names, and its switches.
#[derive(Clone, Copy, Debug, PartialEq, Eq)]
pub enum HeadSwitches {
    /// joined, interrupts, jumpers, level
    V260([u32; 4]),
    /// joined
    V560([u32; 1]),
    /// geo, capacity
    V830([u32; 2]),
}

impl Head {
    /// The numbers of the head, in its order.
    pub fn numbers(&self) -> Vec<u32> {
        let (module, switches) = match &self.switches {
            HeadSwitches::V260(switches) => (260, &switches[..]),
            HeadSwitches::V560(switches) => (560, &switches[..]),
            HeadSwitches::V830(switches) => (830, &switches[..]),
        };
        [&[module], switches, &self.counts].concat()
    }

    /// The bytes of the head.
    pub fn bytes(&self) -> Vec<u8> {
        numbers_bytes(&self.numbers())
    }

    /// Line 1 of the trace.
    pub fn title(&self) -> &'static str {
        match self.switches {
            HeadSwitches::V260(_) => TITLE_260,
            HeadSwitches::V560(_) => TITLE_560,
            HeadSwitches::V830(_) => TITLE_830,
        }
    }

    /// The positions and the largest values of its limited numbers.
    pub fn limits(&self) -> &'static [(usize, u32)] {
        match self.switches {
            HeadSwitches::V260(_) => &LIMITS_260,
            HeadSwitches::V560(_) => &LIMITS_560,
            HeadSwitches::V830(_) => &LIMITS_830,
        }
    }
}

/// The head of an input and the place after it, or its first fault.
pub fn read_head(input: &[u8]) -> Result<(Head, usize), u32> {
    let (module, place) = number_at(input, 0)?;
    let (switches, place) = match module {
        260 => {
            let (switches, place) = head_numbers(input, place, &LARGEST_SWITCHES_260)?;
            (HeadSwitches::V260(switches), place)
        }
        560 => {
            let (switches, place) = head_numbers(input, place, &LARGEST_SWITCHES_560)?;
            (HeadSwitches::V560(switches), place)
        }
        830 => {
            let (switches, place) = head_numbers(input, place, &LARGEST_SWITCHES_830)?;
            (HeadSwitches::V830(switches), place)
        }
        _ => return Err(OTHER_MODULE),
    };
    let (counts, place) = match switches {
        HeadSwitches::V830(_) => counts_at::<{ block::CHANNELS }>(input, place)?,
        _ => counts_at::<{ scaler::CHANNELS }>(input, place)?,
    };
    Ok((Head { switches, counts }, place))
}

/// So many counts of any size, and the place after them.
fn counts_at<const N: usize>(input: &[u8], place: usize) -> Result<(Vec<u32>, usize), u32> {
    let (counts, place) = head_numbers(input, place, &[u32::MAX; N])?;
    Ok((counts.to_vec(), place))
}

/// The input of a head, calls and the bytes behind them.
pub fn input_of(head: &Head, calls: &[Call], rest: &[u8]) -> Vec<u8> {
    let mut bytes = head.bytes();
    calls.iter().for_each(|call| bytes.extend(call.bytes()));
    bytes.extend(rest);
    bytes
}

/// The head of a V260 with these joined, interrupts, jumpers and level.
pub fn v260(switches: [u32; 4], counts: [u32; scaler::CHANNELS]) -> Head {
    Head {
        switches: HeadSwitches::V260(switches),
        counts: counts.to_vec(),
    }
}

/// The head of a V560 with these sections joined.
pub fn v560(joined: u32, counts: [u32; scaler::CHANNELS]) -> Head {
    Head {
        switches: HeadSwitches::V560([joined]),
        counts: counts.to_vec(),
    }
}

/// The head of a V830 with this GEO and capacity, and counts that are all alike.
pub fn v830(geo: u32, capacity: u32, count: u32) -> Head {
    Head {
        switches: HeadSwitches::V830([geo, capacity]),
        counts: vec![count; block::CHANNELS],
    }
}

#[cfg(test)]
mod tests {
    use super::*;

    #[test]
    fn the_titles_name_every_number() {
        let names: Vec<&str> = TITLE_260.trim_end().split(' ').collect();
        assert_eq!(names.len(), 9 + 32);
        assert_eq!(names[7..10], ["line", "vme", "c0"]);
        assert_eq!(names[24..26], ["c15", "l0"]);
        let names: Vec<&str> = TITLE_560.trim_end().split(' ').collect();
        assert_eq!(names.len(), 11 + 32);
        assert_eq!(names[8..12], ["vme", "sections", "latch", "c0"]);
        assert_eq!(names[42], "l15");
        let names: Vec<&str> = TITLE_830.trim_end().split(' ').collect();
        assert_eq!(names.len(), 11 + 32);
        assert_eq!(names[2..5], ["value", "geo", "control"]);
        assert_eq!(names[10..12], ["stored", "c0"]);
        assert_eq!(names[42], "c31");
    }

    #[test]
    fn a_head_reads_as_it_is_written() {
        let head = Head {
            switches: HeadSwitches::V830([u32::MAX, 40_000]),
            counts: (0..32).map(|channel| channel << 27 | channel).collect(),
        };
        let bytes = head.bytes();
        assert_eq!(bytes[..2], [0xBE, 6]);
        assert_eq!(read_head(&bytes), Ok((head, bytes.len())));
        assert_eq!(read_head(&bytes[..bytes.len() - 1]), Err(30));
    }
}
