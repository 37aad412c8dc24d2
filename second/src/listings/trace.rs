//! The listing `trace` of docs/FORMATS.md, made by a module.

use crate::listings::end::{put_end, End};
use crate::listings::head::{put_numbers, put_words};
use crate::listings::own_module::own_start;
use crate::listings::trace_head::{read_head, Head};
use crate::model::log::{read_entry, Entry};
use crate::model::module::{Call, Given, Module};

/// The good entries of a log from `place` on, and the fault that ends it and its place, if any.
pub fn entries_from(input: &[u8], place: usize) -> (Vec<Entry>, Option<(u32, usize)>) {
    let mut entries = Vec::new();
    let mut next = place;
    while next < input.len() {
        let entry = read_entry(input, next);
        if entry.answer != 0 {
            return (entries, Some((entry.answer, next)));
        }
        next = entry.place;
        entries.push(entry);
    }
    (entries, None)
}

/// Adds the line of one call to the listing.
fn put_call<M: Module>(listing: &mut String, entry: usize, given: Given, module: &M) {
    let mut numbers = vec![entry as u32, given.answer, given.value];
    numbers.extend(module.columns());
    put_numbers(listing, &numbers);
}

/// The whole `trace` listing of an input that ended so, by modules as `start` starts them.
pub fn list_trace<M: Module>(
    input: &[u8],
    end: End,
    start: &dyn Fn(&Head) -> (Given, M),
) -> String {
    let mut listing = String::new();
    let (head, place) = match read_head(input) {
        Ok(head) => head,
        Err(answer) => {
            put_end(&mut listing, Some((answer, 0)), end);
            return listing;
        }
    };
    listing += head.title();
    let (given, mut module) = start(&head);
    put_call(&mut listing, 0, given, &module);
    let (entries, fault) = entries_from(input, place);
    for (position, entry) in entries.iter().enumerate() {
        let given = module.call(Call::of(entry));
        put_call(&mut listing, position + 1, given, &module);
    }
    let whole = put_end(&mut listing, fault, end);
    if let Some(words) = module.memory().filter(|_| whole) {
        put_words(&mut listing, "memory", words);
    }
    listing
}

/// The whole `trace` listing of this program's own modules.
pub fn own_trace(input: &[u8]) -> String {
    list_trace(input, End::Whole, &own_start)
}
