//! The listing `blocks` of docs/FORMATS.md, made by a block reader.

use crate::listings::end::{put_end, End};
use crate::listings::head::{head_numbers, put_numbers};
use crate::model::block::{read_event, Read, Settings, WORDS_END};
use crate::model::log::LOG_ENDS;

/// Line 1, as docs/FORMATS.md writes it down.
pub const BLOCKS_TITLE: &str = "place answer length geo source trigger \
c0 c1 c2 c3 c4 c5 c6 c7 c8 c9 c10 c11 c12 c13 c14 c15 \
c16 c17 c18 c19 c20 c21 c22 c23 c24 c25 c26 c27 c28 c29 c30 c31\n";

/// The largest numbers of the head: header, short, enable.
const LARGEST_IN_HEAD: [u32; 3] = [1, 1, u32::MAX];

/// A block reader: this program's own, or a wrong one in a test.
pub type BlockReader<'a> = dyn Fn(&Settings, &[u32]) -> Read + Sync + 'a;

/// A capture taken apart.
pub struct Capture {
    pub settings: Settings,
    /// The number of whole words captured.
    pub words: usize,
    /// Each event and the word at which it begins.
    pub events: Vec<(usize, Read)>,
    /// The place of bytes that make no whole word, if the listing comes to them.
    pub left: Option<usize>,
}

/// The capture in an input, or the fault of its head.
pub fn read_capture(input: &[u8], reader: &BlockReader) -> Result<Capture, u32> {
    let ([header, short, enable], start) = head_numbers(input, 0, &LARGEST_IN_HEAD)?;
    let settings = Settings {
        header: header == 1,
        short: short == 1,
        enable,
    };
    let words = whole_words(&input[start..]);
    let events = read_events(reader, &settings, &words);
    let refused = events.last().map_or(false, |(_, read)| read.answer != 0);
    let end = start + 4 * words.len();
    Ok(Capture {
        settings,
        words: words.len(),
        events,
        left: Some(end).filter(|end| *end < input.len() && !refused),
    })
}

/// The whole words of these bytes, low byte first.
fn whole_words(bytes: &[u8]) -> Vec<u32> {
    bytes
        .chunks_exact(4)
        .map(|four| u32::from_le_bytes([four[0], four[1], four[2], four[3]]))
        .collect()
}

/// The events one behind the other, up to the last word or a refused one.
fn read_events(reader: &BlockReader, settings: &Settings, words: &[u32]) -> Vec<(usize, Read)> {
    let mut events = Vec::new();
    let mut place = 0;
    while place < words.len() {
        let read = reader(settings, &words[place..]);
        events.push((place, read));
        if read.answer != 0 {
            break;
        }
        place += read.length;
    }
    events
}

/// Adds the line of one event to the listing.
fn put_event(listing: &mut String, place: usize, read: &Read) {
    let event = &read.event;
    let mut numbers = [0; 38];
    let front = [place as u32, read.answer, read.length as u32];
    numbers[..3].copy_from_slice(&front);
    numbers[3..6].copy_from_slice(&[event.geo, event.source, event.trigger]);
    numbers[6..].copy_from_slice(&event.counts);
    put_numbers(listing, &numbers);
}

/// The whole `blocks` listing of an input that ended so. An event whose words end is refused, but not where a
/// failed read cut them off.
pub fn list_blocks(input: &[u8], end: End, reader: &BlockReader) -> String {
    let mut listing = String::new();
    let capture = match read_capture(input, reader) {
        Ok(capture) => capture,
        Err(answer) => {
            put_end(&mut listing, Some((answer, 0)), end);
            return listing;
        }
    };
    let ended = |read: &Read| read.answer == WORDS_END;
    listing += BLOCKS_TITLE;
    for (place, read) in &capture.events {
        if !ended(read) || end == End::Whole {
            put_event(&mut listing, *place, read);
        }
    }
    let last = capture.events.last();
    if last.map_or(true, |(_, read)| read.answer == 0 || ended(read)) {
        let fault = capture.left.map(|place| (LOG_ENDS, place));
        put_end(&mut listing, fault, end);
    }
    listing
}

/// The whole `blocks` listing of this program's own reader.
pub fn own_blocks(input: &[u8]) -> String {
    list_blocks(input, End::Whole, &read_event)
}

#[cfg(test)]
mod tests {
    use super::*;

    /// Document 01's short event, its words low byte first.
    const MARKED: [u8; 12] = [1, 0, 8, 0x0C, 7, 0, 0, 0, 9, 0, 0, 0x10];

    /// The listing of these parts, less its first line.
    fn blocks(parts: &[&[u8]]) -> String {
        own_blocks(&parts.concat())
            .strip_prefix(BLOCKS_TITLE)
            .expect("the first line")
            .to_string()
    }

    /// A line of these first numbers and then 0s, 38 numbers in all.
    fn line(first: &str) -> String {
        let zeros = 38 - first.split(' ').count();
        format!("{}{}\n", first, " 0".repeat(zeros))
    }

    #[test]
    fn the_title_names_every_number() {
        let names: Vec<&str> = BLOCKS_TITLE.trim_end().split(' ').collect();
        assert_eq!(names.len(), 38);
        assert_eq!(names[5..8], ["trigger", "c0", "c1"]);
        assert_eq!(names[37], "c31");
        assert!(BLOCKS_TITLE.starts_with("place answer length geo source trigger c0 "));
    }

    #[test]
    fn events_one_behind_the_other() {
        let head = [1, 1, 5];
        assert_eq!(blocks(&[&head]), "");
        let first = line("0 0 3 1 0 1 7 0 9");
        let second = line("3 0 3 1 0 1 7 0 9");
        assert_eq!(blocks(&[&head, &MARKED]), first);
        let two = first.clone() + &second;
        assert_eq!(blocks(&[&head, &MARKED, &MARKED]), two);
        // One byte less: the event's line with 20. Bytes behind the last event: the fault line.
        let cut = first.clone() + &line("3 20");
        assert_eq!(blocks(&[&head, &MARKED, &MARKED[..11]]), cut);
        assert_eq!(
            blocks(&[&head, &MARKED, &[1]]),
            first.clone() + "fault 30 15\n"
        );
        let wide = [1, 1, 0x85, 0x80, 0x80, 0x80, 0];
        assert_eq!(own_blocks(&wide), "fault 31 0\n");
        assert_eq!(blocks(&[&head, &MARKED[..3]]), "fault 30 3\n");
        // Behind a refused event nothing is listed.
        let refused = line("0 21");
        assert_eq!(blocks(&[&head, &[0; 4], &MARKED, &[1]]), refused);
        assert_eq!(blocks(&[&[0, 0, 0], &[9; 9]]), line("0 8"));
        assert_eq!(blocks(&[&[0, 0, 0], &[9; 3]]), "fault 30 3\n");
    }

    #[test]
    fn faults_of_a_head() {
        let faults: [(&[u8], u32); 10] = [
            (&[], 30),
            (&[1], 30),
            (&[1, 1], 30),
            (&[1, 1, 0x80], 30),
            (&[2], 34),
            (&[1, 2, 5], 34),
            (&[2, 0x80, 0], 34),
            (&[0x80, 0, 2], 31),
            (&[0, 0x81, 0, 5], 31),
            (&[0, 0, 0xFF, 0xFF, 0xFF, 0xFF, 0x10], 32),
        ];
        for (head, fault) in faults {
            assert_eq!(own_blocks(head), format!("fault {} 0\n", fault));
        }
    }
}
