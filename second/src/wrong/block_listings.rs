//! Tests of `compare blocks` itself: listings that are wrong on purpose, otherwise than by their
//! reader, must be caught, by the fixed inputs and by the random ones, or by the long ones.

use crate::compare::blocks::DEFAULT_BLOCKS;
use crate::inputs::blocks::fixed::fixed_blocks;
use crate::inputs::blocks::long::long_blocks;
use crate::inputs::blocks::random::make_blocks;
use crate::inputs::rng::DEFAULT_SEED;
use crate::listings::blocks::{own_blocks, BLOCKS_TITLE};
use crate::listings::head::head_numbers;
use crate::wrong::caught::caught;

/// A listing that is wrong otherwise than by its reader.
type WrongListing = fn(&[u8]) -> String;

/// The length of a good head, else that of the input.
fn head_length(input: &[u8]) -> usize {
    head_numbers(input, 0, &[1, 1, u32::MAX]).map_or(input.len(), |(_, after)| after)
}

/// The listing and its last line.
fn last_line(listing: &str) -> (&str, &str) {
    let end = listing[..listing.len() - 1]
        .rfind('\n')
        .map_or(0, |at| at + 1);
    listing.split_at(end)
}

/// Whether a listing ends in the line of a refused event.
fn refused(listing: &str) -> bool {
    let numbers: Vec<&str> = last_line(listing).1.split(' ').collect();
    numbers.len() == 38 && numbers[1] != "0" && numbers[1] != "answer"
}

/// Listings that inputs of every length show to be wrong.
const WRONG_LISTINGS: [(&str, WrongListing); 6] = [
    ("a title before a head's fault", |input| {
        let right = own_blocks(input);
        match right.starts_with("fault") {
            true => BLOCKS_TITLE.to_string() + &right,
            false => right,
        }
    }),
    ("ranges looked at last", |input| {
        let right = own_blocks(input);
        match head_numbers(input, 0, &[u32::MAX; 3]) {
            Err(answer) if right == "fault 34 0\n" => format!("fault {} 0\n", answer),
            _ => right,
        }
    }),
    ("bytes left unsaid", |input| {
        let right = own_blocks(input);
        match last_line(&right) {
            (before, last) if last.starts_with("fault") && !before.is_empty() => before.to_string(),
            _ => right,
        }
    }),
    ("bytes left behind a refused event", |input| {
        let right = own_blocks(input);
        let left = (input.len() - head_length(input)) % 4;
        match refused(&right) && left > 0 {
            true => format!("{}fault 30 {}\n", right, input.len() - left),
            false => right,
        }
    }),
    ("bytes left counted from the first word", |input| {
        let right = own_blocks(input);
        let start = head_length(input);
        let left = (input.len() - start) % 4;
        right.replace(
            &format!("\nfault 30 {}\n", input.len() - left),
            &format!("\nfault 30 {}\n", input.len() - left - start),
        )
    }),
    ("a refused event is not the last", |input| {
        let right = own_blocks(input);
        match refused(&right) {
            true => right.clone() + last_line(&right).1,
            false => right,
        }
    }),
];

/// Listings that only inputs longer than 65,536 bytes show to be wrong.
const WRONG_AT_EDGE: [(&str, WrongListing); 4] = [
    ("nothing is read behind the edge", |input| {
        own_blocks(&input[..input.len().min(65_536)])
    }),
    ("a word across the edge is lost", |input| {
        let start = head_length(input);
        if input.len() <= 65_536 {
            return own_blocks(input);
        }
        let whole = 65_536 - (65_536 - start) % 4;
        own_blocks(&[&input[..whole], &input[65_536..]].concat())
    }),
    ("an event across the edge is cut", |input| {
        let cut = own_blocks(&input[..input.len().min(65_536)]);
        match refused(&cut) {
            true => cut,
            false => own_blocks(input),
        }
    }),
    ("places of 16 bits", |input| {
        own_blocks(input).replace("\nfault 30 655", "\nfault 30 0")
    }),
];

#[test]
fn every_wrong_listing_is_caught_by_fixed_and_by_random_inputs() {
    let fixed = fixed_blocks();
    let random = make_blocks(DEFAULT_SEED, DEFAULT_BLOCKS);
    for (what, wrong) in WRONG_LISTINGS {
        let program = |input: &[u8]| wrong(input).into_bytes();
        assert!(caught(&program, &fixed, &own_blocks), "fixed: {}", what);
        assert!(caught(&program, &random, &own_blocks), "random: {}", what);
    }
}

#[test]
fn long_inputs_catch_what_goes_wrong_at_the_edge() {
    let long = long_blocks(DEFAULT_SEED);
    for (what, wrong) in WRONG_AT_EDGE {
        let program = |input: &[u8]| wrong(input).into_bytes();
        assert!(caught(&program, &long, &own_blocks), "{}", what);
    }
}

#[test]
fn every_byte_of_an_event_meets_an_edge() {
    let mut met = [[false; 12]; 5];
    for input in long_blocks(DEFAULT_SEED) {
        if input.name.starts_with("three-word events") {
            let head = head_length(&input.bytes);
            let edges = (65_536..input.bytes.len()).step_by(65_536);
            edges.for_each(|edge| met[head - 3][(edge - head) % 12] = true);
        }
    }
    // The head's length leaves the same byte of every word, and the edges meet each word.
    for (number, met) in met.iter().enumerate() {
        for (byte, met) in met.iter().enumerate() {
            let expected = (byte + number + 3) % 4 == 0;
            assert_eq!(*met, expected, "head {} byte {}", number + 3, byte);
        }
    }
}
