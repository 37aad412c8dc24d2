//! How an input ended, and the line that ends a listing by it.

use crate::listings::head::put_fault;
use crate::model::log::LOG_ENDS;
use std::fmt::Write;
use std::io::Read;

/// What the line of a failed read begins with; the error's number follows.
const FAILED_READ: &str = "failed read ";

/// The number of an error that the system did not number: an input or output error.
const UNNUMBERED: i32 = 5;

/// How an input ended.
#[derive(Clone, Copy, Debug, PartialEq, Eq)]
pub enum End {
    /// There is no more of it.
    Whole,
    /// A read failed with this number of the system: nobody knows what would follow.
    Failed(i32),
}

/// All bytes that can be read, and how they ended.
pub fn read_all(input: &mut dyn Read) -> (Vec<u8>, End) {
    let mut bytes = Vec::new();
    let end = match input.read_to_end(&mut bytes) {
        Ok(_) => End::Whole,
        Err(error) => End::Failed(error.raw_os_error().unwrap_or(UNNUMBERED)),
    };
    (bytes, end)
}

/// Adds the line that ends a listing, if there is one: that of the fault found last, or that of a failed read
/// where no fault was found, or only that the bytes ended. Gives whether the listing is not cut.
pub fn put_end(listing: &mut String, fault: Option<(u32, usize)>, end: End) -> bool {
    match (fault, end) {
        (None, End::Whole) => true,
        (None | Some((LOG_ENDS, _)), End::Failed(number)) => {
            writeln!(listing, "{}{}", FAILED_READ, number).expect("a String takes every line");
            false
        }
        (Some((answer, place)), _) => {
            put_fault(listing, answer, place);
            true
        }
    }
}

/// Whether a listing is cut by a failed read.
pub fn is_cut(listing: &str) -> bool {
    let last = listing.lines().last();
    last.map_or(false, |line| line.starts_with(FAILED_READ))
}
