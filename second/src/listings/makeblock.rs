//! The listing `makeblock` of docs/FORMATS.md, made by a block writer.

use crate::listings::end::{put_end, End};
use crate::listings::head::{head_numbers, put_numbers};
use crate::model::block::{write_event, Event, Settings, Written, CHANNELS};

/// The largest number of words that are lent.
pub const LARGEST_ROOM: u32 = 64;

/// The numbers of a head: header, short, enable, room, geo, source, trigger, the counts.
pub const HEAD_NUMBERS: usize = 7 + CHANNELS;

/// A block writer: this program's own, or a wrong one in a test.
pub type BlockWriter<'a> = dyn Fn(&Settings, &Event, &mut [u32]) -> Written + Sync + 'a;

/// What an input asks to be written.
#[derive(Clone, Copy, Debug, PartialEq, Eq)]
pub struct Request {
    pub settings: Settings,
    pub room: usize,
    pub event: Event,
}

impl Request {
    /// The request as the numbers of its head.
    pub fn numbers(&self) -> [u32; HEAD_NUMBERS] {
        let mut numbers = [0; HEAD_NUMBERS];
        let (settings, event) = (&self.settings, &self.event);
        numbers[0] = u32::from(settings.header);
        numbers[1] = u32::from(settings.short);
        numbers[2] = settings.enable;
        numbers[3] = self.room as u32;
        numbers[4..7].copy_from_slice(&[event.geo, event.source, event.trigger]);
        numbers[7..].copy_from_slice(&event.counts);
        numbers
    }
}

/// The largest that each number of a head may be.
fn largest_in_head() -> [u32; HEAD_NUMBERS] {
    let mut largest = [u32::MAX; HEAD_NUMBERS];
    largest[0] = 1;
    largest[1] = 1;
    largest[3] = LARGEST_ROOM;
    largest
}

/// What an input asks for, or the fault of its head.
pub fn read_request(input: &[u8]) -> Result<Request, u32> {
    let (numbers, _) = head_numbers(input, 0, &largest_in_head())?;
    let mut counts = [0; CHANNELS];
    counts.copy_from_slice(&numbers[7..]);
    Ok(Request {
        settings: Settings {
            header: numbers[0] == 1,
            short: numbers[1] == 1,
            enable: numbers[2],
        },
        room: numbers[3] as usize,
        event: Event {
            geo: numbers[4],
            source: numbers[5],
            trigger: numbers[6],
            counts,
        },
    })
}

/// What the writer gives for a request, and the lent words after the call.
pub fn written(request: &Request, writer: &BlockWriter) -> (Written, Vec<u32>) {
    let mut lent: Vec<u32> = (1..=request.room as u32).collect();
    let given = writer(&request.settings, &request.event, &mut lent);
    (given, lent)
}

/// The whole `makeblock` listing of an input that ended so.
pub fn list_makeblock(input: &[u8], end: End, writer: &BlockWriter) -> String {
    let mut listing = String::new();
    match read_request(input) {
        Err(answer) => {
            put_end(&mut listing, Some((answer, 0)), end);
        }
        Ok(request) => {
            let (given, lent) = written(&request, writer);
            put_numbers(&mut listing, &[given.answer, given.length as u32]);
            put_numbers(&mut listing, &lent);
        }
    }
    listing
}

/// The whole `makeblock` listing of this program's own writer.
pub fn own_makeblock(input: &[u8]) -> String {
    list_makeblock(input, End::Whole, &write_event)
}

#[cfg(test)]
mod tests {
    use super::*;

    /// An input: the first seven numbers, counts 7 and 9 of channels 0 and 2, and bytes behind them.
    fn input(first: [u8; 7], behind: &[u8]) -> Vec<u8> {
        let mut counts = [0; 32];
        counts[0] = 7;
        counts[2] = 9;
        [&first, &counts[..], behind].concat()
    }

    #[test]
    fn listings_by_hand() {
        // 0C080001 is 201850881 and 10000009 is 268435465.
        let long = own_makeblock(&input([1, 0, 5, 3, 1, 0, 1], &[]));
        assert_eq!(long, "0 3\n201850881 7 9\n");
        let short = own_makeblock(&input([1, 1, 5, 4, 1, 0, 1], &[0x80, 0]));
        assert_eq!(short, "0 3\n201850881 7 268435465 4\n");
        let bare = own_makeblock(&input([0, 0, 5, 2, 0, 0, 0], &[]));
        assert_eq!(bare, "0 2\n7 9\n");
        let refusals = [
            ([1, 0, 5, 2, 1, 0, 1], "27 0\n1 2\n"),
            ([1, 0, 5, 0, 1, 0, 1], "27 0\n\n"),
            ([1, 0, 5, 1, 32, 0, 1], "28 0\n1\n"),
            ([1, 0, 4, 1, 1, 0, 1], "28 0\n1\n"),
            ([0, 1, 0, 3, 1, 0, 1], "8 0\n1 2 3\n"),
        ];
        for (first, listing) in refusals {
            assert_eq!(own_makeblock(&input(first, &[])), listing, "{:?}", first);
        }
    }

    #[test]
    fn faults_of_a_head() {
        let good = input([1, 0, 5, 3, 1, 0, 1], &[]);
        assert_eq!(good.len(), 39);
        for cut in 0..39 {
            assert_eq!(own_makeblock(&good[..cut]), "fault 30 0\n");
        }
        let faults: [(&[u8], u32); 7] = [
            (&[2], 34),
            (&[0, 2, 0x80, 0], 34),
            (&[1, 1, 0, 65], 34),
            (&[1, 1, 0, 64], 30),
            (&[1, 1, 0x80, 0, 65], 31),
            (&[0x80, 0], 31),
            (&[1, 1, 0xFF, 0xFF, 0xFF, 0xFF, 0x10, 65], 32),
        ];
        for (head, fault) in faults {
            assert_eq!(own_makeblock(head), format!("fault {} 0\n", fault));
        }
    }
}
