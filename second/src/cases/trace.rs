//! Tests of the listing `trace`, reckoned by hand.

use crate::inputs::trace::fixed::marked;
use crate::listings::trace::own_trace;
use crate::listings::trace_head::{input_of, TITLE_260, TITLE_560};

/// The lines behind the title.
fn lines(input: &[u8], title: &str) -> String {
    let listing = own_trace(input);
    listing
        .strip_prefix(title)
        .expect("the first line")
        .to_string()
}

/// Blanks and zeros, so many.
pub fn zeros(count: usize) -> String {
    " 0".repeat(count)
}

#[test]
fn the_marked_cases_line_by_line() {
    let [joined, four_and_five, five] =
        marked().map(|(_, head, calls)| input_of(&head, &calls, &[]));
    // enabled requested level vector line vme sections latch, then c0, c1 and 30 others.
    let expected = format!(
        "0 0 0 0 0 0 0 0 0 0 1 0 4294967295{}\n1 0 0 0 0 0 0 0 0 0 1 1 0{}\n",
        zeros(30),
        zeros(30)
    );
    assert_eq!(lines(&joined, TITLE_560), expected);
    let expected = format!(
        "0 0 0 0 0 1 0 0 0 0 0 0 16777215{}\n1 0 0 0 0 1 0 0 0 0 0 0 0 1{}\n",
        zeros(28),
        zeros(27)
    );
    assert_eq!(lines(&four_and_five, TITLE_260), expected);
    // FF000005 is 4278190085 and 7F000005 is 2130706437.
    let rest = zeros(31);
    let expected = [
        "0 0 0 0 0 1 0 0 0 5",
        "1 0 4278190085 0 0 1 0 0 0 5",
        "2 0 0 0 0 1 0 1 0 5",
        "3 0 2130706437 0 0 1 0 1 0 5",
        "4 0 0 0 0 1 0 0 0 5",
        "5 0 0 0 0 1 0 0 1 5",
        "6 0 2130706437 0 0 1 0 0 1 5",
    ]
    .map(|line| format!("{}{}\n", line, rest));
    assert_eq!(lines(&five, TITLE_260), expected.concat());
}

#[test]
fn a_refused_start_and_a_malformed_record() {
    // 260, joined 0, interrupts 0, jumpers 0, level 9, counts 0; kind 4 and a pulse on 16.
    let refused = [&[0x84, 2, 0, 0, 0, 9][..], &[0; 16], &[4, 0, 16, 1]].concat();
    let line = |start: &str| format!("{}{}\n", start, zeros(34));
    let expected = line("0 12 0 0 0 8 0") + &line("1 12 0 0 0 8 0") + &line("2 12 0 0 0 8 0");
    assert_eq!(lines(&refused, TITLE_260), expected);
    // A count of 16777216 in channel 0.
    let malformed = [0x84, 2, 0, 0, 0, 1, 0x80, 0x80, 0x80, 8];
    let malformed = [&malformed[..], &[0; 15], &[4]].concat();
    let line = |start: &str| format!("{} 0 0 0 16777216{}\n", start, zeros(31));
    let expected = line("0 0 0 0 0 1") + &line("1 12 0 0 0 1");
    assert_eq!(lines(&malformed, TITLE_260), expected);
}

#[test]
fn faults_of_logs_and_of_heads() {
    let head = [&[0xB0, 4, 0][..], &[0; 16]].concat();
    let start = format!("0 0 0 0 0 0 0 0 0 0 1{}\n", zeros(32));
    assert_eq!(lines(&head, TITLE_560), start);
    let faulty = [&head[..], &[4, 8, 2]].concat();
    let trigger = format!("1 4 0 0 0 0 0 0 0 0 1{}\n", zeros(32));
    let expected = start.clone() + &trigger + "fault 33 20\n";
    assert_eq!(lines(&faulty, TITLE_560), expected);
    let cut = [&head[..], &[0, 1]].concat();
    assert_eq!(lines(&cut, TITLE_560), start + "fault 30 19\n");
    let heads: [(&[u8], u32); 12] = [
        (&[], 30),
        (&[0x84], 30),
        (&[0x84, 2], 30),
        (&[0xB0, 4, 0, 0], 30),
        (&[0xBF, 6], 33),
        (&[4, 0x80, 0], 33),
        (&[0x84, 0x82, 0], 31),
        (&[0xB0, 4, 0x80, 2], 34),
        (&[0x84, 2, 0x80, 0x80, 4], 34),
        (&[0x84, 2, 0, 0x80, 0x80, 4], 34),
        (&[0x84, 2, 0, 0, 4, 0x80, 0], 34),
        (&[0xB0, 4, 0, 0xFF, 0xFF, 0xFF, 0xFF, 0x10], 32),
    ];
    for (head, fault) in heads {
        assert_eq!(
            own_trace(head),
            format!("fault {} 0\n", fault),
            "{:X?}",
            head
        );
    }
}
