//! A case of `logcases`, and many of them framed as one input with this program's own listing.

use crate::inputs::input::hex;
use crate::listings::logs::{calls, put_call, Call, CASES_TITLE, OWN_READER};
use crate::model::write_log::shortest;

/// One log and the place from which it is read.
#[derive(Clone, Debug, PartialEq, Eq)]
pub struct Case {
    pub start: usize,
    pub bytes: Vec<u8>,
}

impl Case {
    /// A case of these bytes, read from `start`.
    pub fn new(start: usize, bytes: &[u8]) -> Case {
        Case {
            start,
            bytes: bytes.to_vec(),
        }
    }

    /// What makes one case smaller than another: fewer bytes, then a lower start, then lower bytes.
    pub fn size(&self) -> (usize, usize, &[u8]) {
        (self.bytes.len(), self.start, &self.bytes)
    }

    /// The calls this program's own reader makes of the case.
    pub fn own_calls(&self) -> Vec<Call> {
        calls(&OWN_READER, self.start, &self.bytes)
    }

    /// The case in words, a long log cut short.
    pub fn shown(&self) -> String {
        format!("start {}, {}", self.start, hex(&self.bytes))
    }
}

/// Many cases as one input of `logcases`.
pub struct Batch {
    pub input: Vec<u8>,
    pub listing: String,
    /// For each case the number of lines up to its end, the first line counted.
    ends: Vec<usize>,
}

impl Batch {
    /// Frames the cases and lists them.
    pub fn new(cases: &[Case]) -> Batch {
        let mut batch = Batch {
            input: Vec::new(),
            listing: String::from(CASES_TITLE),
            ends: Vec::new(),
        };
        let mut lines = 1;
        for case in cases {
            frame(&mut batch.input, case);
            for call in case.own_calls() {
                put_call(&mut batch.listing, &call);
                lines += 1;
            }
            batch.ends.push(lines);
        }
        batch
    }

    /// The case to which a line (counted from 0) belongs; the last one for lines past the end.
    pub fn case_of(&self, line: usize) -> usize {
        let case = self.ends.partition_point(|end| *end <= line);
        case.min(self.ends.len() - 1)
    }

    /// The line, from 0, at which a case's lines begin.
    pub fn first_line(&self, case: usize) -> usize {
        match case {
            0 => 1,
            _ => self.ends[case - 1],
        }
    }
}

/// Adds a case, its head first, to an input.
pub fn frame(input: &mut Vec<u8>, case: &Case) {
    input.extend(shortest(case.start as u32));
    input.extend(shortest(case.bytes.len() as u32));
    input.extend(&case.bytes);
}

#[cfg(test)]
mod tests {
    use super::*;
    use crate::listings::end::End;
    use crate::listings::logs::list_cases;

    #[test]
    fn cases_are_framed_as_the_format_says() {
        let mut input = Vec::new();
        frame(&mut input, &Case::new(300, &[2; 130]));
        assert_eq!(input[..5], [0xAC, 0x02, 0x82, 0x01, 2]);
        assert_eq!(input.len(), 134);
    }

    #[test]
    fn a_batch_lists_what_its_input_lists() {
        let cases = [
            Case::new(0, &[2, 3, 8]),
            Case::new(9, &[]),
            Case::new(1, &[7, 1, 1]),
        ];
        let batch = Batch::new(&cases);
        assert_eq!(
            batch.listing,
            list_cases(&batch.input, End::Whole, &OWN_READER)
        );
        // Lines: 0 the title; 1, 2, 3 the first case; 4 the second; 5, 6 the third.
        let owners: Vec<usize> = (1..8).map(|line| batch.case_of(line)).collect();
        assert_eq!(owners, [0, 0, 0, 1, 2, 2, 2]);
        assert_eq!(
            [
                batch.first_line(0),
                batch.first_line(1),
                batch.first_line(2)
            ],
            [1, 4, 5]
        );
    }
}
