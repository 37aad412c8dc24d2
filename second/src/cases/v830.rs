//! Tests of the V830 and of its listing, all reckoned by hand.

use crate::cases::trace::zeros;
use crate::inputs::trace::fixed_v830::marked_830;
use crate::inputs::trace::scripts_v830::*;
use crate::listings::own_module::{own_start, Own};
use crate::listings::trace::own_trace;
use crate::listings::trace_head::{input_of, v830, TITLE_830};
use crate::model::module::{Call, Call::*, Module};
use crate::model::v830::V830;

/// A V830 with this GEO and capacity, its counts all 0.
fn started(geo: u32, capacity: u32) -> V830 {
    match own_start(&v830(geo, capacity, 0)).1 {
        Own::V830(module) => *module,
        Own::Scaler(_) => unreachable!("a V830 was asked for"),
    }
}

/// The answer and the value of each call, one behind the other.
fn given(module: &mut V830, calls: &[Call]) -> Vec<(u32, u32)> {
    let given = calls.iter().map(|call| module.call(*call));
    given.map(|given| (given.answer, given.value)).collect()
}

/// Does calls that are all answered 0, and gives the last value.
fn does(module: &mut V830, calls: &[Call]) -> u32 {
    let given = given(module, calls);
    assert!(given.iter().all(|(answer, _)| *answer == 0), "{:?}", given);
    given.last().map_or(0, |(_, value)| *value)
}

/// The listing of a marked case by its number, behind the title.
fn listing(number: usize) -> String {
    let (name, head, calls) = &marked_830()[number];
    let listing = own_trace(&input_of(head, calls, &[]));
    listing.strip_prefix(TITLE_830).expect(name).to_string()
}

#[test]
fn marked_seven_and_nine() {
    // Control 21 is 33 and 25 is 37; 0C080001 is 201850881, 10000009 is 268435465.
    for (number, control, last) in [(0, 33, 9), (1, 37, 268_435_465)] {
        let rest = zeros(29);
        let counted =
            |line: &str, place: &str| format!("{} 1 {} 5 {} 7 0 9{}\n", line, control, place, rest);
        let none = zeros(32);
        let expected = [
            format!("0 0 0 1 0 4294967295 0 0 4 0 0{}\n", none),
            format!("1 0 0 1 0 5 0 0 4 0 0{}\n", none),
            format!("2 0 0 1 {} 5 0 0 4 0 0{}\n", control, none),
            format!("3 0 0 1 {} 5 0 0 4 0 0 7{}\n", control, zeros(31)),
            counted("4 0 0", "0 0 4 0 0"),
            counted("5 0 0", "1 0 4 0 3"),
            counted("6 0 201850881", "1 0 4 1 2"),
            counted("7 0 7", "1 0 4 2 1"),
            counted(&format!("8 0 {}", last), "1 0 4 3 0"),
            counted("9 5 0", "1 0 4 3 0"),
            format!("memory 201850881 7 {} 4\n", last),
        ];
        assert_eq!(listing(number), expected.concat());
    }
}

#[test]
fn marked_65_and_66_words() {
    // The header of 32 channels: 04800000, source 1 (10000) and trigger 1, that is 75563009.
    let start = |capacity: u32| {
        let line = |front: &str| format!("{} 0 0 {} 0 0{}\n", front, capacity, zeros(32));
        line("0 0 0 0 0 4294967295")
            + &line("1 0 0 0 0 4294967295")
            + &line("2 0 0 0 33 4294967295")
    };
    let line = |front: &str, triggers: u32, capacity: u32, stored: u32| {
        let columns = format!("{} 0 {} 0 {}", triggers, capacity, stored);
        format!("{} 0 33 4294967295 {}{}\n", front, columns, zeros(32))
    };
    let mut expected = start(65) + &line("3 0 0", 1, 65, 33) + &line("4 9 0", 1, 65, 33);
    expected += &line("5 0 1", 1, 65, 33);
    let untouched: String = (34..=65).map(|word| format!(" {}", word)).collect();
    expected += &format!("memory 75563009{}{}\n", zeros(32), untouched);
    assert_eq!(listing(2), expected);
    let mut expected = start(66) + &line("3 0 0", 1, 66, 33) + &line("4 0 0", 2, 66, 66);
    expected += &line("5 0 2", 2, 66, 66);
    expected += &format!("memory 75563009{} 75563010{}\n", zeros(32), zeros(32));
    assert_eq!(listing(3), expected);
}

#[test]
fn marked_one_word_with_auto_reset() {
    // Control 81 is 129.
    let line = |front: &str, columns: &str| format!("{} {}{}\n", front, columns, zeros(31));
    let expected = [
        line("0 0 0 0 0 4294967295", "0 0 1 0 0 0"),
        line("1 0 0 0 0 1", "0 0 1 0 0 0"),
        line("2 0 0 0 129 1", "0 0 1 0 0 0"),
        line("3 0 0 0 129 1", "0 0 1 0 0 4"),
        line("4 0 0 0 129 1", "1 0 1 0 1 0"),
        line("5 0 0 0 129 1", "1 0 1 0 1 3"),
        line("6 9 0 0 129 1", "1 0 1 0 1 3"),
        line("7 0 0 0 129 1", "1 0 1 0 1 5"),
        line("8 0 4 0 129 1", "1 0 1 0 0 5"),
        line("9 0 5 0 129 1", "1 0 1 0 0 5"),
        "memory 4\n".to_string(),
    ];
    assert_eq!(listing(4), expected.concat());
}

#[test]
fn refused_starts_and_the_memory_line() {
    // 830, GEO 32, 2 words, counts 3: 12, and so is MAN CLR behind it; then a fault of the log.
    let input = [&[0xBE, 6, 32, 2][..], &[3; 32], &[7, 8]].concat();
    let counts = " 3".repeat(32);
    let line = |front: &str| format!("{} 0 0 4294967295 0 0 0 0 0{}\n", front, counts);
    let expected = line("0 12 0") + &line("1 12 0") + "fault 33 37\nmemory 1 2\n";
    assert_eq!(own_trace(&input), TITLE_830.to_string() + &expected);
    // No words: 10, and the word memory alone.
    let input = [&[0xBE, 6, 31, 0][..], &[3; 32], &[4]].concat();
    let expected = line("0 10 0") + &line("1 12 0") + "memory\n";
    assert_eq!(own_trace(&input), TITLE_830.to_string() + &expected);
    // 32,769 words: 10, and they are all lent.
    let input = [&[0xBE, 6, 0, 0x81, 0x80, 2][..], &[3; 32]].concat();
    let listing = own_trace(&input);
    assert!(listing.starts_with(&(TITLE_830.to_string() + &line("0 10 0"))));
    assert!(listing.ends_with(" 32768 32769\n"));
    for (head, fault) in [
        (&[0xBE, 6][..], 30),
        (&[0xBE, 6, 0, 0xC1, 0xB8, 2, 0x80, 0], 34),
        (&[0xBE, 6, 0, 0xC0, 0xB8, 2, 0x80, 0], 31),
        (&[0xBD, 6, 0, 1], 33),
    ] {
        assert_eq!(own_trace(head), format!("fault {} 0\n", fault));
    }
}

#[test]
fn registers_of_section_3_1() {
    let mut module = started(3, 5);
    let calls = [
        (Read(ENABLE, 32), (0, u32::MAX)),
        (Write(ENABLE, 32, 0x8000_0001), (0, 0)),
        (Read(ENABLE, 32), (0, 0x8000_0001)),
        (Write(ENABLE, 16, 1), (2, 0)),
        (Write(CONTROL, 16, 0xFF61), (0, 0)),
        (Read(CONTROL, 16), (0, 0x61)),
        (Read(CONTROL, 32), (2, 0)),
        (Write(BIT_SET, 16, 0x02), (4, 0)),
        (Write(BIT_SET, 16, 0xFF80), (0, 0)),
        (Write(BIT_CLEAR, 16, 0xFF40), (0, 0)),
        (Read(CONTROL, 16), (0, 0xA1)),
        (Read(BIT_SET, 16), (3, 0)),
        (Read(BIT_CLEAR, 16), (3, 0)),
        (Pulses(31, 6), (0, 0)),
        (Read(0x107C, 32), (0, 6)),
        (Read(0x1060, 32), (0, 0)),
        (Read(0x107C, 16), (2, 0)),
        (Read(0x107E, 16), (1, 0)),
        (Write(0x107C, 32, 0), (3, 0)),
        (Read(0x0FFC, 32), (5, 0)),
        (Read(0x0FFC, 16), (2, 0)),
        (Write(0x0FFC, 32, 0), (3, 0)),
        (Read(0x0FFE, 32), (1, 0)),
        (Read(0x1080, 32), (1, 0)),
        (Write(0x1124, 16, 7), (0, 0)),
        (Read(0x1128, 32), (0, 1)),
        (Read(0x1128, 16), (2, 0)),
        (Write(0x1128, 32, 0), (3, 0)),
        (Read(0x1134, 16), (0, 1)),
        (Write(ENABLE, 32, 0x8000_0001), (6, 0)),
        (Read(0x0104, 32), (0, 0x1C08_0001)),
        (Read(0x1134, 16), (0, 1)),
        (Read(0x0000, 32), (0, 0)),
        (Read(0x0000, 32), (0, 6)),
        (Read(0x1134, 16), (0, 0)),
        (Read(0x1134, 32), (2, 0)),
        (Read(0x1120, 16), (3, 0)),
        (Read(0x1122, 16), (3, 0)),
        (Read(0x1124, 16), (3, 0)),
        (Read(0x110E, 16), (1, 0)),
        (Read(0x1104, 32), (1, 0)),
        (Read(0x9108, 16), (1, 0)),
        (ManClr, (4, 0)),
    ];
    for (call, expected) in calls {
        assert_eq!(given(&mut module, &[call]), [expected], "{:?}", call);
    }
}

#[test]
fn the_memory_goes_round() {
    // Two words an event in three places: the second event lies across the end.
    let mut module = started(0, 3);
    does(&mut module, &set_up(3, 0x81));
    does(
        &mut module,
        &[Pulses(0, 5), Pulses(1, 6), Trigger, Pulses(1, 7)],
    );
    assert_eq!(given(&mut module, &[Trigger]), [(9, 0)]);
    assert_eq!(does(&mut module, &[MEMORY]), 5);
    does(&mut module, &[Trigger]);
    assert_eq!(module.memory, [7, 6, 0]);
    assert_eq!((module.record.first, module.record.stored), (1, 3));
    assert_eq!(does(&mut module, &[NUMBER]), 2);
    assert_eq!(does(&mut module, &[MEMORY]), 6);
    assert_eq!(does(&mut module, &[MEMORY]), 0);
    assert_eq!(does(&mut module, &[MEMORY]), 7);
    // The last word read moves the first place on; a refused Control has cleared nothing.
    assert_eq!((module.record.first, module.record.stored), (1, 0));
    does(&mut module, &[Trigger]);
    assert_eq!(given(&mut module, &[Write(CONTROL, 16, 3)]), [(4, 0)]);
    assert_eq!((module.record.first, module.record.stored), (1, 2));
    does(&mut module, &[Write(BIT_SET, 16, 0)]);
    assert_eq!((module.record.first, module.record.stored), (0, 0));
    assert_eq!((module.record.triggers, module.memory), (0, vec![7, 0, 0]));
}

#[test]
fn what_clears_what() {
    let after = |control: u32, call: Call| {
        let mut module = started(9, 10);
        does(&mut module, &set_up(1, control));
        does(
            &mut module,
            &[Trigger, Trigger, MEMORY, Test, VetoLine(true), call],
        );
        let record = module.record;
        assert!(record.veto && record.geo == 9 && record.counts == [0; 32]);
        (
            record.control,
            record.enable,
            record.triggers,
            record.first,
            record.stored,
        )
    };
    for call in [ClearLine, CLEAR] {
        assert_eq!(after(0x01, call), (0x01, 1, 2, 1, 1));
        assert_eq!(after(0x41, call), (0x41, 1, 2, 0, 0));
    }
    assert_eq!(after(0x19, RESET), (0, u32::MAX, 0, 0, 0));
    assert_eq!(after(0x19, Write(CONTROL, 16, 0x19)), (0x19, 1, 0, 0, 0));
    assert_eq!(after(0x19, Write(BIT_CLEAR, 16, 1)), (0x18, 1, 0, 0, 0));
}

#[test]
fn triggers_are_refused_in_their_order() {
    let refused = |enable: u32, control: u32| {
        let mut module = started(0, 2);
        does(&mut module, &set_up(enable, control));
        given(&mut module, &[Trigger, SOFTWARE_TRIGGER])[..].to_vec()
    };
    assert_eq!(refused(0, 0x80), [(7, 0); 2]);
    assert_eq!(refused(7, 0x02), [(7, 0); 2]);
    assert_eq!(refused(0, 0x81), [(8, 0); 2]);
    assert_eq!(refused(7, 0x81), [(9, 0); 2]);
    assert_eq!(refused(0, 0x21), [(0, 0); 2]);
}

#[test]
fn veto_stops_inputs_and_not_test() {
    let mut module = started(0, 1);
    let disabled = Write(ENABLE, 32, 0);
    does(
        &mut module,
        &[disabled, Pulses(4, u32::MAX), VetoLine(true)],
    );
    does(&mut module, &[Pulses(4, 1), Pulses(5, 9)]);
    assert_eq!(module.record.counts[4..6], [u32::MAX, 0]);
    does(&mut module, &[Test, VetoLine(false), Pulses(5, 2)]);
    assert_eq!(module.record.counts[3..6], [1, 0, 3]);
}

#[test]
fn short_counts_past_26_bits() {
    let mut module = started(0, 4);
    does(&mut module, &set_up(0x8000_0000, 0x05));
    does(&mut module, &[Pulses(31, (1 << 26) + 5), SOFTWARE_TRIGGER]);
    assert_eq!(does(&mut module, &[MEMORY]), 0xF800_0005);
    assert_eq!(module.record.counts[31], 0x0400_0005);
}
