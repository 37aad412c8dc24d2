//! Tests of the block reader and the block writer, reckoned by hand, and of their round trips.

use crate::inputs::blocks::events::{any_event, any_settings, good_words, settings_of};
use crate::inputs::blocks::fixed::BY_HAND;
use crate::inputs::makeblock::fixed::marked_event;
use crate::inputs::rng::Rng;
use crate::model::block::{read_event, write_event, Event, Read, Written, CHANNELS};

const LONG: (bool, bool) = (true, false);
const SHORT: (bool, bool) = (true, true);
const BARE: (bool, bool) = (false, false);

/// The answer, the length and the lent words of writing an event into words 1, 2, 3 ..
fn write(format: (bool, bool), enable: u32, event: &Event, room: u32) -> (u32, usize, Vec<u32>) {
    let mut lent: Vec<u32> = (1..=room).collect();
    let written = write_event(&settings_of(format, enable), event, &mut lent);
    (written.answer, written.length, lent)
}

/// An event of these header fields and counts of channel 0 only.
fn event(geo: u32, source: u32, trigger: u32, count: u32) -> Event {
    let mut counts = [0; CHANNELS];
    counts[0] = count;
    Event {
        geo,
        source,
        trigger,
        counts,
    }
}

#[test]
fn the_marked_cases() {
    let marked = marked_event();
    for (format, last) in [(LONG, 9), (SHORT, 0x10000009)] {
        let words = [0x0C080001, 7, last];
        let read = read_event(&settings_of(format, 5), &words);
        let expected = Read {
            answer: 0,
            length: 3,
            event: marked,
        };
        assert_eq!(read, expected);
        let lent = [&words[..], &[4]].concat();
        assert_eq!(write(format, 5, &marked, 4), (0, 3, lent));
    }
}

#[test]
fn captures_by_hand() {
    for (header, short, enable, words, answers) in BY_HAND {
        let settings = settings_of((header, short), enable);
        let mut rest = words;
        let mut given = Vec::new();
        while !rest.is_empty() {
            let read = read_event(&settings, rest);
            given.push(read.answer);
            if read.answer != 0 {
                assert_eq!((read.length, read.event), (0, Event::default()));
                break;
            }
            rest = &rest[read.length..];
        }
        assert_eq!(given, answers, "{:08X?}", words);
    }
    assert_eq!(read_event(&settings_of(LONG, 5), &[]).answer, 20);
    assert_eq!(read_event(&settings_of(BARE, 5), &[]).answer, 20);
    assert_eq!(read_event(&settings_of(BARE, 0), &[]).answer, 8);
}

#[test]
fn fields_at_their_edges() {
    let header_only = event(31, 3, 65_535, 0);
    assert_eq!(write(LONG, 0, &header_only, 1), (0, 1, vec![0xFC03FFFF]));
    assert_eq!(
        read_event(&settings_of(SHORT, 0), &[0xFC03FFFF, 0]).event,
        header_only
    );
    let mut counts = [1; CHANNELS];
    counts[31] = 0x03FFFFFF;
    let full = Event {
        counts,
        ..event(0, 1, 2, 0)
    };
    let (answer, length, lent) = write(SHORT, u32::MAX, &full, 33);
    assert_eq!((answer, length), (0, 33));
    // GEO 0, bit 26, count 32, source 1, trigger 2; channels 0, 1 and 31.
    assert_eq!(lent[..3], [0x04810002, 0x00000001, 0x08000001]);
    assert_eq!(lent[32], 0xFBFFFFFF);
    let mut last = Event::default();
    last.counts[31] = 5;
    let given = write((false, true), 0x80000000, &last, 2);
    assert_eq!(given, (0, 1, vec![0xF8000005, 2]));
}

#[test]
fn events_that_cannot_be_written() {
    let largest = 0x03FFFFFF;
    for (format, enable, wrong, answer) in [
        (LONG, 1, event(31, 3, 65_535, u32::MAX), 0),
        (SHORT, 1, event(31, 3, 65_535, largest), 0),
        (LONG, 1, event(32, 0, 0, 0), 28),
        (LONG, 1, event(0, 4, 0, 0), 28),
        (LONG, 1, event(0, 0, 65_536, 0), 28),
        (SHORT, 1, event(0, 0, 0, largest + 1), 28),
        (SHORT, 2, event(0, 0, 0, largest + 1), 28),
        (LONG, 2, event(0, 0, 0, 1), 28),
        (SHORT, 0, event(0, 0, 0, 1), 28),
        (BARE, 1, event(0, 0, 0, u32::MAX), 0),
        (BARE, 1, event(1, 0, 0, 0), 28),
        (BARE, 1, event(0, 1, 0, 0), 28),
        (BARE, 1, event(0, 0, 1, 0), 28),
        (BARE, 0, event(0, 0, 0, 0), 8),
        (BARE, 0, event(32, 4, 65_536, 1), 8),
    ] {
        let given = write(format, enable, &wrong, 3);
        assert_eq!(given.0, answer, "{:?} {:?}", format, wrong);
        if answer != 0 {
            assert_eq!((given.1, given.2), (0, vec![1, 2, 3]));
        }
    }
}

#[test]
fn lent_words_too_few() {
    let good = event(1, 0, 1, 7);
    assert_eq!(write(LONG, 1, &good, 1), (27, 0, vec![1]));
    assert_eq!(write(LONG, 1, &good, 0), (27, 0, vec![]));
    assert_eq!(write(LONG, 1, &good, 2), (0, 2, vec![0x0C040001, 7]));
    assert_eq!(write(LONG, 1, &event(32, 0, 0, 7), 1), (28, 0, vec![1]));
    assert_eq!(write(BARE, 0, &event(0, 0, 0, 0), 0), (8, 0, vec![]));
}

#[test]
fn round_trips() {
    let mut rng = Rng::new(3);
    for _ in 0..5_000 {
        let settings = any_settings(&mut rng);
        let length = settings.length();
        if length == 0 {
            continue;
        }
        let event = any_event(&mut rng, &settings);
        let mut lent = vec![0; length + 1];
        let expected = Written { answer: 0, length };
        assert_eq!(write_event(&settings, &event, &mut lent), expected);
        let read = read_event(&settings, &lent);
        assert_eq!((read.answer, read.length), (0, length));
        assert_eq!(read.event, event);
        let words = good_words(&mut rng, &settings, 2 * length);
        let read = read_event(&settings, &words);
        assert_eq!(read, read_event(&settings, &words[..length]));
        let mut again = vec![0; length];
        assert_eq!(write_event(&settings, &read.event, &mut again), expected);
        assert_eq!(again, words[..length]);
    }
}
