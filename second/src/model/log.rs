//! The bench log reader, from document 01, 'Bench log'.

pub const LOG_ENDS: u32 = 30;
pub const NOT_SHORTEST: u32 = 31;
pub const NUMBER_TOO_LARGE: u32 = 32;
pub const KIND_TOO_LARGE: u32 = 33;
pub const OUT_OF_RANGE: u32 = 34;

/// What reading one number gives.
#[derive(Clone, Copy, Debug, PartialEq, Eq)]
pub struct Number {
    pub answer: u32,
    pub value: u32,
    pub place: usize,
}

/// What reading one entry gives.
#[derive(Clone, Copy, Debug, PartialEq, Eq)]
pub struct Entry {
    pub answer: u32,
    pub kind: u32,
    pub arguments: [u32; 3],
    pub place: usize,
}

impl Number {
    /// A refused number: its answer, value 0 and the place given.
    pub fn refused(answer: u32, place: usize) -> Number {
        let value = 0;
        Number {
            answer,
            value,
            place,
        }
    }
}

impl Entry {
    /// A refused entry: its answer, all fields 0 and the place given.
    pub fn refused(answer: u32, place: usize) -> Entry {
        Entry {
            answer,
            kind: 0,
            arguments: [0; 3],
            place,
        }
    }
}

/// What an argument stands for, which decides its range.
#[derive(Clone, Copy, Debug, PartialEq, Eq)]
pub enum Argument {
    Channel,
    HowMany,
    Line,
    Offset,
    Width,
    Data,
}

use Argument::*;

/// The arguments of each kind, in the log's order.
pub const KINDS: [&[Argument]; 8] = [
    &[Channel, HowMany],
    &[Line],
    &[],
    &[],
    &[],
    &[Offset, Width],
    &[Offset, Width, Data],
    &[],
];

/// Whether `value` is in the argument's range, `before` being the entry's arguments read so far.
fn in_range(argument: Argument, value: u32, before: &[u32; 3]) -> bool {
    match argument {
        Channel => value <= 31,
        HowMany => true,
        Line => value <= 1,
        Offset => value < 65_536,
        Width => value == 16 || value == 32,
        Data => before[1] == 32 || value < 65_536,
    }
}

/// The number at `place` and the place after it, or the first fault found.
pub fn number_at(bytes: &[u8], place: usize) -> Result<(u32, usize), u32> {
    let mut value = 0;
    let mut group = 0;
    loop {
        let at = place.saturating_add(group);
        let byte = *bytes.get(at).ok_or(LOG_ENDS)?;
        if group == 4 && byte > 0x0F {
            return Err(NUMBER_TOO_LARGE);
        }
        value |= u32::from(byte & 0x7F) << (7 * group);
        if byte == 0 && group > 0 {
            return Err(NOT_SHORTEST);
        }
        if byte < 0x80 {
            return Ok((value, at + 1));
        }
        group += 1;
    }
}

/// The entry at `place`, or the first fault found.
fn entry_at(bytes: &[u8], place: usize) -> Result<Entry, u32> {
    let (kind, mut next) = number_at(bytes, place)?;
    let expected = KINDS.get(kind as usize).ok_or(KIND_TOO_LARGE)?;
    let mut arguments = [0; 3];
    for (position, argument) in expected.iter().enumerate() {
        let (value, after) = number_at(bytes, next)?;
        if !in_range(*argument, value, &arguments) {
            return Err(OUT_OF_RANGE);
        }
        arguments[position] = value;
        next = after;
    }
    Ok(Entry {
        answer: 0,
        kind,
        arguments,
        place: next,
    })
}

/// Reads one number.
pub fn read_number(bytes: &[u8], place: usize) -> Number {
    match number_at(bytes, place) {
        Ok((value, place)) => Number {
            answer: 0,
            value,
            place,
        },
        Err(answer) => Number::refused(answer, place),
    }
}

/// Reads one entry.
pub fn read_entry(bytes: &[u8], place: usize) -> Entry {
    entry_at(bytes, place).unwrap_or_else(|answer| Entry::refused(answer, place))
}

#[cfg(test)]
mod tests {
    use super::*;

    /// A number accepted: its value and the place after it.
    fn good(value: u32, place: usize) -> Number {
        Number {
            answer: 0,
            value,
            place,
        }
    }

    /// An entry accepted: its kind, arguments and the place after it.
    fn entry(kind: u32, arguments: [u32; 3], place: usize) -> Entry {
        Entry {
            answer: 0,
            kind,
            arguments,
            place,
        }
    }

    #[test]
    fn numbers_of_document_01() {
        assert_eq!(read_number(&[0xAC, 0x02], 0), good(300, 2));
        let largest = [0xFF, 0xFF, 0xFF, 0xFF, 0x0F];
        assert_eq!(read_number(&largest, 0), good(4_294_967_295, 5));
        assert_eq!(read_number(&[0x80, 0x00], 0), Number::refused(31, 0));
    }

    #[test]
    fn numbers_at_their_edges() {
        assert_eq!(read_number(&[], 0), Number::refused(30, 0));
        assert_eq!(read_number(&[7], 1), Number::refused(30, 1));
        assert_eq!(
            read_number(&[7], usize::MAX),
            Number::refused(30, usize::MAX)
        );
        assert_eq!(read_number(&[0], 0), good(0, 1));
        assert_eq!(read_number(&[0x80], 0), Number::refused(30, 0));
        assert_eq!(read_number(&[9, 0x80, 0x80, 1], 1), good(16_384, 4));
        assert_eq!(
            read_number(&[0x80, 0x80, 0x80, 0x80, 1], 0),
            good(268_435_456, 5)
        );
    }

    #[test]
    fn fifth_bytes() {
        let with_fifth = |fifth| read_number(&[0x80, 0x80, 0x80, 0x80, fifth], 0).answer;
        assert_eq!(with_fifth(0x00), 31);
        assert_eq!(with_fifth(0x0F), 0);
        for fifth in [0x10, 0x7F, 0x80, 0x8F, 0xFF] {
            assert_eq!(with_fifth(fifth), 32, "{:02X}", fifth);
        }
        assert_eq!(read_number(&[0x80; 4], 0).answer, 30);
    }

    #[test]
    fn entries_of_each_kind() {
        assert_eq!(
            read_entry(&[0, 31, 0xAC, 0x02], 0),
            entry(0, [31, 300, 0], 4)
        );
        assert_eq!(read_entry(&[1, 1], 0), entry(1, [1, 0, 0], 2));
        for kind in [2, 3, 4, 7] {
            assert_eq!(
                read_entry(&[kind, 0xFF], 0),
                entry(u32::from(kind), [0; 3], 1)
            );
        }
        let read = [2, 5, 0xFF, 0xFF, 0x03, 32];
        assert_eq!(read_entry(&read, 1), entry(5, [65_535, 32, 0], 6));
        let write = [6, 0x88, 0x22, 16, 0xFF, 0xFF, 0x03];
        assert_eq!(read_entry(&write, 0), entry(6, [0x1108, 16, 65_535], 7));
        let wide = [6, 0, 32, 0x80, 0x80, 0x04];
        assert_eq!(read_entry(&wide, 0), entry(6, [0, 32, 65_536], 6));
    }

    #[test]
    fn the_first_fault_from_the_left() {
        let refusals: [(&[u8], u32); 13] = [
            (&[], 30),
            (&[0, 5], 30),
            (&[6, 0, 16], 30),
            (&[0x80, 0], 31),
            (&[0, 0x81, 0], 31),
            (&[0, 0, 0xFF, 0xFF, 0xFF, 0xFF, 0x10], 32),
            (&[8], 33),
            (&[0x80, 1, 0x80, 0], 33),
            (&[0, 32], 34),
            (&[1, 2], 34),
            (&[5, 0x80, 0x80, 4, 17], 34),
            (&[5, 0, 17], 34),
            (&[6, 0, 16, 0x80, 0x80, 4], 34),
        ];
        for (bytes, answer) in refusals {
            assert_eq!(
                read_entry(bytes, 0),
                Entry::refused(answer, 0),
                "{:02X?}",
                bytes
            );
        }
        assert_eq!(read_entry(&[2, 2, 8], 2), Entry::refused(33, 2));
    }
}
