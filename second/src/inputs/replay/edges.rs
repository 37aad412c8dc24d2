//! Logs of `replay` whose longest entries lie over the edges of a buffer, at every split: whole ones, and
//! ones that end inside the entry over the first edge.

use crate::inputs::input::Input;
use crate::inputs::replay::long::laid_across;
use crate::inputs::trace::long::{EDGE, LONGEST};
use crate::inputs::trace::scripts_v830::ENABLE;
use crate::model::module::Call::{self, Write};

/// The longest entries laid over the first edge and over the second: the longest ones that there are, and
/// those of nine bytes, the longest that a V830 accepts, whose data have five groups that differ.
const LAID: [[Call; 2]; 2] = [
    [LONGEST, LONGEST],
    [
        Write(ENABLE, 32, 0xF123_4567),
        Write(ENABLE, 32, 0xCBA9_8765),
    ],
];

/// All logs over edges.
pub fn edge_replays() -> Vec<Input> {
    let mut inputs = Vec::new();
    for calls in LAID {
        for split in 0..calls[0].bytes().len() {
            for second in second_edges(split) {
                let name = format!("{:?}, {} bytes before {}", calls, split, second);
                inputs.push(Input::new(name, whole(calls, split, second)));
            }
        }
    }
    for split in 1..LONGEST.bytes().len() {
        for behind in 0..LONGEST.bytes().len() - split {
            let name = format!(
                "a log cut {} bytes behind {} of its last entry",
                behind, split
            );
            inputs.push(Input::new(name, cut(split, behind)));
        }
    }
    inputs
}

/// Where the second edge may lie behind a split of the first: the bytes in front of that may be kept in the
/// buffer and read on behind, or be taken out of it.
fn second_edges(split: usize) -> Vec<usize> {
    let mut edges = vec![2 * EDGE - split, 2 * EDGE];
    edges.dedup();
    edges
}

/// The two calls, each with so many bytes in front of its edge.
fn whole(calls: [Call; 2], split: usize, second: usize) -> Vec<u8> {
    laid_across(&[(EDGE, calls[0]), (second, calls[1])], split)
}

/// A log that ends so many bytes behind the first edge, inside an entry with `split` bytes before it.
fn cut(split: usize, behind: usize) -> Vec<u8> {
    let mut log = laid_across(&[(EDGE, LONGEST)], split);
    log.truncate(EDGE + behind);
    log
}

#[cfg(test)]
mod tests {
    use super::*;
    use crate::listings::replay::own_replay;

    #[test]
    fn what_is_cut_over_the_edge_is_a_fault_at_its_first_byte() {
        for split in 1..10 {
            for behind in 0..10 - split {
                let listing = own_replay(&cut(split, behind));
                let told = format!("\nfault 30 {}\n", 65_536 - split);
                assert!(listing.ends_with(&told), "{} and {}", split, behind);
            }
        }
    }

    #[test]
    fn what_is_written_over_each_edge_is_read_behind_it() {
        for split in 0..9 {
            for second in second_edges(split) {
                let listing = own_replay(&whole(LAID[1], split, second));
                for data in [0xF123_4567u32, 0xCBA9_8765] {
                    let read = format!(" 0 {}\n", data);
                    assert_eq!(listing.matches(&read).count(), 1, "{}", split);
                }
                assert!(!listing.contains("fault"));
            }
        }
    }
}
