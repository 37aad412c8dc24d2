//! Tests of the listing `replay`, reckoned by hand.

use crate::inputs::trace::scripts_v830::{set_up, MEMORY, NUMBER};
use crate::listings::replay::{own_replay, REPLAY_TITLE};
use crate::model::module::Call;

#[test]
fn the_logs_that_must_be_shown() {
    let shown: [(&[u8], &str); 4] = [
        (
            &[0x00, 0x00, 0x04, 0x02, 0x04],
            "entry answer value\n1 0 0\n2 0 0\n3 7 0\n",
        ),
        (&[0x07], "entry answer value\n1 4 0\n"),
        (&[], "entry answer value\n"),
        (&[0x00, 0x20], "entry answer value\nfault 34 0\n"),
    ];
    for (log, listing) in shown {
        assert_eq!(own_replay(log), listing, "{:02X?}", log);
    }
}

#[test]
fn an_event_is_read_and_a_fault_ends_it() {
    let mut calls = set_up(5, 0xA1);
    calls.extend([Call::Pulses(0, 7), Call::Pulses(2, 9), Call::Trigger]);
    calls.extend([NUMBER, MEMORY, MEMORY, MEMORY, MEMORY]);
    let mut log: Vec<u8> = calls.iter().flat_map(Call::bytes).collect();
    assert_eq!(log.len(), 5 + 6 + 3 + 3 + 1 + 4 + 12);
    log.extend([0x02, 0x08, 0x02]);
    // The header by hand: GEO 0, bit 26, two channels, source 1 (the line), trigger 1: 04090001.
    let lines = "1 0 0\n2 0 0\n3 0 0\n4 0 0\n5 0 0\n6 0 1\n7 0 67698689\n8 0 7\n9 0 9\n10 5 0\n";
    let expected = format!("{}{}11 0 0\nfault 33 35\n", REPLAY_TITLE, lines);
    assert_eq!(own_replay(&log), expected);
}
