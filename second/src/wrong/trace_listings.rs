//! Tests of `compare trace` itself: listings that are wrong on purpose, otherwise than by their
//! module, must be caught, by the fixed inputs and by the random ones, or by the long ones.

use crate::inputs::rng::DEFAULT_SEED;
use crate::inputs::trace::fixed::fixed_traces;
use crate::inputs::trace::long::long_traces;
use crate::inputs::trace::random::make_traces;
use crate::listings::head::head_numbers;
use crate::listings::trace::{entries_from, own_trace};
use crate::listings::trace_head::{read_head, TITLE_260};
use crate::model::log::number_at;
use crate::wrong::caught::caught;

/// A listing that is wrong otherwise than by its module.
type WrongListing = fn(&[u8]) -> String;

/// The place after a good head, else that after the input.
fn log_place(input: &[u8]) -> usize {
    read_head(input).map_or(input.len(), |(_, place)| place)
}

/// The listing with the place of its fault changed.
fn with_place(input: &[u8], change: fn(usize, usize) -> usize) -> String {
    let right = own_trace(input);
    let log = log_place(input);
    match entries_from(input, log).1 {
        Some((answer, place)) if log < input.len() => right.replace(
            &format!("\nfault {} {}\n", answer, place),
            &format!("\nfault {} {}\n", answer, change(place, log)),
        ),
        _ => right,
    }
}

/// The listing with the fault of a head that is looked at otherwise.
fn with_head_fault(input: &[u8], fault: fn(&[u8]) -> Option<u32>) -> String {
    match (read_head(input), fault(input)) {
        (Err(_), Some(answer)) => format!("fault {} 0\n", answer),
        _ => own_trace(input),
    }
}

/// The fault of a head of which ranges and the module are looked at last.
fn fault_without_ranges(input: &[u8]) -> Option<u32> {
    let module = number_at(input, 0).map(|(module, _)| module);
    match module {
        Ok(260) => head_numbers(input, 0, &[u32::MAX; 21]).err(),
        Ok(830) => head_numbers(input, 0, &[u32::MAX; 35]).err(),
        _ => head_numbers(input, 0, &[u32::MAX; 18]).err(),
    }
}

/// Each line behind the title, changed.
fn with_lines(input: &[u8], change: fn(usize, &str) -> String) -> String {
    let right = own_trace(input);
    let lines = right.lines().enumerate();
    lines
        .map(|(line, text)| change(line, text) + "\n")
        .collect()
}

/// Listings that inputs of every length show to be wrong.
const WRONG_LISTINGS: [(&str, WrongListing); 9] = [
    ("a title before a head's fault", |input| {
        let right = own_trace(input);
        match right.starts_with("fault") {
            true => TITLE_260.to_string() + &right,
            false => right,
        }
    }),
    ("places counted from the log", |input| {
        with_place(input, |place, log| place - log)
    }),
    ("the place behind the fault's first byte", |input| {
        with_place(input, |place, _| place + 1)
    }),
    ("ranges looked at last", |input| {
        with_head_fault(input, fault_without_ranges)
    }),
    ("another module is 34", |input| {
        match own_trace(input).as_str() {
            "fault 33 0\n" => "fault 34 0\n".to_string(),
            right => right.to_string(),
        }
    }),
    ("entries counted from 0", |input| {
        with_lines(input, |line, text| match text.split_once(' ') {
            Some((_, rest)) if line > 1 && !text.starts_with('f') => {
                format!("{} {}", line - 2, rest)
            }
            _ => text.to_string(),
        })
    }),
    ("no start line", |input| {
        let right = own_trace(input);
        let lines = right.split_inclusive('\n').enumerate();
        lines
            .filter(|(line, _)| *line != 1)
            .map(|(_, text)| text)
            .collect()
    }),
    ("the fault of a log unsaid", |input| {
        let right = own_trace(input);
        match right.rfind("\nfault") {
            Some(at) => right[..at + 1].to_string(),
            None => right,
        }
    }),
    ("a fault behind the last entry", |input| {
        let right = own_trace(input);
        match right.contains("fault") {
            true => right,
            false => format!("{}fault 30 {}\n", right, input.len()),
        }
    }),
];

/// The memory line of a V830's listing and what stands before it; none of other listings.
fn memory_line(listing: &str) -> Option<(&str, &str)> {
    let at = listing.rfind("\nmemory")? + 1;
    Some(listing.split_at(at))
}

/// A V830's listing with its memory line changed.
fn with_memory(input: &[u8], change: fn(&str, &str) -> String) -> String {
    let right = own_trace(input);
    match memory_line(&right) {
        Some((front, memory)) => change(front, memory),
        None => right,
    }
}

/// The record's capacity, first place and stored words in the last line of numbers.
fn store(front: &str) -> [usize; 3] {
    let is_number = |line: &&str| line.starts_with(|first: char| first.is_ascii_digit());
    let line = front.lines().rfind(is_number).expect("a line");
    let numbers: Vec<usize> = line
        .split(' ')
        .map(|word| word.parse().expect("a number"))
        .collect();
    [numbers[8], numbers[9], numbers[10]]
}

/// Listings of a V830 whose memory line is wrong.
const WRONG_MEMORIES: [(&str, WrongListing); 9] = [
    ("no memory line", |input| {
        with_memory(input, |front, _| front.to_string())
    }),
    ("the memory in front of the fault", |input| {
        with_memory(input, |front, memory| match front.rfind("\nfault") {
            Some(at) => [&front[..=at], memory, &front[at + 1..]].concat(),
            None => front.to_string() + memory,
        })
    }),
    ("no memory behind a fault", |input| {
        with_memory(input, |front, memory| match front.contains("\nfault") {
            true => front.to_string(),
            false => front.to_string() + memory,
        })
    }),
    ("memory behind a head's fault", |input| {
        let right = own_trace(input);
        match right.starts_with("fault") && input.starts_with(&[0xBE, 6]) {
            true => right + "memory\n",
            false => right,
        }
    }),
    ("no words of a refused start", |input| {
        with_memory(input, |front, memory| match store(front)[0] {
            0 => front.to_string() + "memory\n",
            _ => front.to_string() + memory,
        })
    }),
    ("the oldest stored word first", |input| {
        with_memory(input, |front, memory| {
            let mut words: Vec<&str> = memory.trim_end().split(' ').collect();
            words[1..].rotate_left(store(front)[1]);
            format!("{}{}\n", front, words.join(" "))
        })
    }),
    ("the stored words only", |input| {
        with_memory(input, |front, memory| {
            let words: Vec<&str> = memory.trim_end().split(' ').collect();
            let stored = store(front)[2].min(words.len() - 1);
            format!("{}{}\n", front, words[..=stored].join(" "))
        })
    }),
    ("a blank behind the last word", |input| {
        with_memory(input, |front, memory| {
            format!("{}{} \n", front, memory.trim_end())
        })
    }),
    ("a blank behind the word memory alone", |input| {
        own_trace(input).replace("\nmemory\n", "\nmemory \n")
    }),
];

/// Listings that only inputs longer than 65,536 bytes show to be wrong.
const WRONG_AT_EDGE: [(&str, WrongListing); 4] = [
    ("nothing is read behind the edge", |input| {
        own_trace(&input[..input.len().min(65_536)])
    }),
    ("an entry across the edge is lost", |input| {
        let place = log_place(input);
        let (entries, _) = entries_from(input, place);
        let mut before = entries.iter().filter(|entry| entry.place <= 65_536);
        let behind = entries.iter().find(|entry| entry.place > 65_536);
        match (before.next_back(), behind) {
            (Some(last), Some(across)) if last.place < 65_536 => {
                own_trace(&[&input[..last.place], &input[across.place..]].concat())
            }
            _ => own_trace(input),
        }
    }),
    ("places of 16 bits", |input| {
        with_place(input, |place, _| place % 65_536)
    }),
    ("entries of 12 bits", |input| {
        with_lines(input, |_, text| match text.split_once(' ') {
            Some((entry, rest)) => match entry.parse::<u32>() {
                Ok(number) => format!("{} {}", number % 4_096, rest),
                Err(_) => text.to_string(),
            },
            None => text.to_string(),
        })
    }),
];

#[test]
fn every_wrong_listing_is_caught_by_fixed_and_by_random_inputs() {
    let fixed = fixed_traces();
    let random = make_traces(DEFAULT_SEED, 400);
    for (what, wrong) in WRONG_LISTINGS.into_iter().chain(WRONG_MEMORIES) {
        let program = |input: &[u8]| wrong(input).into_bytes();
        assert!(caught(&program, &fixed, &own_trace), "fixed: {}", what);
        assert!(caught(&program, &random, &own_trace), "random: {}", what);
    }
}

#[test]
fn long_inputs_catch_what_goes_wrong_at_the_edge() {
    let long = long_traces(DEFAULT_SEED);
    for (what, wrong) in WRONG_AT_EDGE {
        let program = |input: &[u8]| wrong(input).into_bytes();
        assert!(caught(&program, &long, &own_trace), "{}", what);
    }
}
