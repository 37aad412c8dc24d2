//! The program as it is run: exit codes and words.

use std::fs;
use std::io::Write;
use std::path::Path;
use std::process::{Command, Output, Stdio};

const SECOND: &str = env!("CARGO_BIN_EXE_second");

/// Runs the program with these words and this standard input.
fn second(words: &[&str], input: &[u8]) -> Output {
    let mut child = Command::new(SECOND)
        .args(words)
        .stdin(Stdio::piped())
        .stdout(Stdio::piped())
        .stderr(Stdio::piped())
        .spawn()
        .expect("the program starts");
    child
        .stdin
        .take()
        .expect("piped")
        .write_all(input)
        .expect("input is read");
    child.wait_with_output().expect("the program ends")
}

/// The exit code and all words of a comparison with a command.
fn compare(words: &[&str]) -> (Option<i32>, String) {
    let output = second(&[&["compare"], words].concat(), b"");
    let words = String::from_utf8(output.stdout).expect("text");
    (output.status.code(), words)
}

#[test]
fn it_agrees_with_itself() {
    let (code, words) = compare(&["logs", "--", SECOND, "answer", "logs"]);
    assert_eq!(code, Some(0), "{}", words);
    assert!(
        words.contains("random cases agree: 24000 cases"),
        "{}",
        words
    );
    let (code, words) = compare(&["entries", "--seed", "9", "--", SECOND, "answer", "entries"]);
    assert_eq!(code, Some(0), "{}", words);
    assert!(words.starts_with("seed 9\n"), "{}", words);
    for (subject, told) in [
        ("blocks", "random inputs agree: 2000 runs"),
        ("makeblock", "random inputs agree: 1200 runs"),
        ("trace", "random inputs agree: 5250 runs"),
        ("replay", "random inputs agree: 1350 runs"),
    ] {
        let (code, words) = compare(&[subject, "--", SECOND, "answer", subject]);
        assert_eq!(code, Some(0), "{}", words);
        assert!(words.contains(told), "{}", words);
        let ledger = words.contains("\nthe ledger checked ");
        assert_eq!(ledger, subject == "trace", "{}", words);
    }
}

#[test]
fn it_answers() {
    let output = second(&["answer", "entries"], &[0, 0, 4, 2, 4]);
    let title = "place kind first second third next\n";
    let listing = format!("{}0 0 0 4 0 3\n3 2 0 0 0 4\n4 4 0 0 0 5\n", title);
    assert_eq!(String::from_utf8(output.stdout), Ok(listing));
    assert_eq!(output.status.code(), Some(0));
    let output = second(&["answer", "blocks"], &[0, 0, 1, 7, 0, 0, 0, 9]);
    let listing = format!("\n0 0 1 0 0 0 7{}\nfault 30 7\n", " 0".repeat(31));
    let given = String::from_utf8(output.stdout).expect("text");
    assert!(given.ends_with(&listing), "{}", given);
    let mut written = vec![0, 0, 1, 2, 0, 0, 0, 7];
    written.extend([0; 31]);
    let output = second(&["answer", "makeblock"], &written);
    assert_eq!(output.stdout, b"0 1\n7 2\n");
    let mut traced = vec![0xB0, 4, 1, 0, 0xFF, 0xFF, 0xFF, 0xFF, 0x0F];
    traced.extend([0; 14]);
    traced.extend([0, 1, 1, 8]);
    let output = second(&["answer", "trace"], &traced);
    let listing = format!(
        "\n1 0 0 0 0 0 0 0 0 0 1 1 0{}\nfault 33 26\n",
        " 0".repeat(30)
    );
    let given = String::from_utf8(output.stdout).expect("text");
    assert!(given.ends_with(&listing), "{}", given);
    for words in [&["answer", "replay"][..], &["replay"]] {
        let output = second(words, &[0, 0, 4, 2, 4]);
        let listing = "entry answer value\n1 0 0\n2 0 0\n3 7 0\n";
        assert_eq!(String::from_utf8(output.stdout), Ok(listing.to_string()));
    }
    let traced = [&[0xBE, 6, 1, 2][..], &[0; 32], &[4, 8]].concat();
    let output = second(&["answer", "trace"], &traced);
    let zeros = " 0".repeat(32);
    let listing = format!(
        "\n1 7 0 1 0 4294967295 0 0 2 0 0{}\nfault 33 37\nmemory 1 2\n",
        zeros
    );
    let given = String::from_utf8(output.stdout).expect("text");
    assert!(given.ends_with(&listing), "{}", given);
}

#[test]
fn a_failed_read_is_told() {
    // A folder can be opened, but a read of it fails with 21.
    for (kind, told) in [
        (
            "logs",
            "answer kind first second third place number value after\n",
        ),
        ("entries", "place kind first second third next\n"),
        ("blocks", ""),
        ("makeblock", ""),
        ("trace", ""),
        ("replay", "entry answer value\n"),
    ] {
        let folder = fs::File::open(env!("CARGO_MANIFEST_DIR")).expect("a folder");
        let output = Command::new(SECOND)
            .args(["answer", kind])
            .stdin(folder)
            .output()
            .expect("the program ends");
        let listing = String::from_utf8(output.stdout).expect("text");
        assert_eq!(listing, format!("{}failed read 21\n", told));
        assert_eq!(output.status.code(), Some(1));
        let words = String::from_utf8(output.stderr).expect("text");
        assert!(words.starts_with("second: standard input: "), "{}", words);
    }
}

#[test]
fn listings_that_a_failed_read_cuts_are_compared() {
    for kind in ["logs", "entries", "blocks", "makeblock", "trace", "replay"] {
        let failures = ["failures", "--seed", "3", "--", kind];
        let (code, words) = compare(&[&failures[..], &[SECOND, "answer", kind]].concat());
        assert_eq!(code, Some(0), "{}", words);
        assert!(
            words.starts_with("seed 3\ninputs that fail agree: "),
            "{}",
            words
        );
        // Behind a pipe the failure is an end.
        let script = format!("cat 2>/dev/null | '{}' answer {}", SECOND, kind);
        let (code, words) = compare(&[&failures[..], &["sh", "-c", &script]].concat());
        assert_eq!(code, Some(1), "{}", words);
        assert!(words.contains("MISMATCH in "), "{}", words);
        assert!(words.contains("failed read 11"), "{}", words);
        let (code, words) = compare(&[&failures[..], &["/no/such/program"]].concat());
        assert_eq!(code, Some(1), "{}", words);
        assert!(words.contains("cannot be started"), "{}", words);
    }
}

#[test]
fn a_night_is_replayed() {
    let night = second(&["night", "3000", "5"], b"");
    assert_eq!(night.status.code(), Some(0));
    let listing = second(&["replay"], &night.stdout).stdout;
    let listing = String::from_utf8(listing).expect("text");
    assert_eq!(listing.lines().count(), 3_001);
    assert!(!listing.contains("fault"));
    assert_ne!(second(&["night", "3000", "6"], b"").stdout, night.stdout);
}

#[test]
fn a_command_that_fails_is_said_to_fail() {
    for (command, told) in [
        (&["/no/such/program"][..], "cannot be started"),
        (&["false"], "false died (exit status: 1)"),
        (&["sh", "-c", "kill -9 $$"], "died (signal: 9"),
        (&["cat"], "prints garbage"),
        (&[SECOND, "--help"], "prints garbage"),
    ] {
        for subject in ["logs", "entries"] {
            let (code, words) = compare(&[&[subject, "--"], command].concat());
            assert_eq!(code, Some(1), "{}", words);
            assert!(words.contains(told), "{}", words);
        }
    }
}

#[test]
fn an_event_listing_that_fails_is_said_to_fail() {
    for (command, told) in [
        (&["/no/such/program"][..], "cannot be started"),
        (&["false"], "false died (exit status: 1)"),
        (&["cat"], "MISMATCH in "),
        (&[SECOND, "--help"], "MISMATCH in "),
    ] {
        for subject in ["blocks", "makeblock", "trace", "replay"] {
            let (code, words) = compare(&[&[subject, "--"], command].concat());
            assert_eq!(code, Some(1), "{}", words);
            assert!(words.contains(told), "{}", words);
        }
    }
}

#[test]
fn a_listing_cut_short_is_a_mismatch() {
    for (subject, bytes) in [
        ("logs", 600),
        ("entries", 600),
        ("blocks", 600),
        ("makeblock", 6),
        ("trace", 600),
        ("replay", 60),
    ] {
        let script = format!("'{}' answer {} | head -c {}", SECOND, subject, bytes);
        let (code, words) = compare(&[subject, "--", "sh", "-c", &script]);
        assert_eq!(code, Some(1), "{}", words);
        assert!(words.contains("MISMATCH"), "{}", words);
    }
}

#[test]
fn what_goes_wrong_where_a_filled_buffer_ends_is_caught() {
    // One byte is lost there if the log is a file, of which every read is filled.
    let lost = "if [ -f /dev/stdin ]; then head -c 65536; head -c 1 >/dev/null; fi; cat";
    let script = format!("{{ {}; }} | '{}' replay", lost, SECOND);
    let folder = Path::new(env!("CARGO_TARGET_TMPDIR")).join("files");
    fs::create_dir_all(&folder).expect("a folder");
    let output = Command::new(SECOND)
        .args(["compare", "replay", "--", "sh", "-c", &script])
        .env("TMPDIR", &folder)
        .output()
        .expect("the program ends");
    let words = String::from_utf8(output.stdout).expect("text");
    assert_eq!(output.status.code(), Some(1), "{}", words);
    assert!(words.contains("MISMATCH in "), "{}", words);
    assert_eq!(fs::read_dir(&folder).expect("a folder").count(), 0);
    fs::remove_dir(&folder).expect("an empty folder");
}

#[test]
fn without_a_folder_for_files_it_fails() {
    let output = Command::new(SECOND)
        .args(["compare", "replay", "--", SECOND, "replay"])
        .env("TMPDIR", "/no/such/folder")
        .output()
        .expect("the program ends");
    let words = String::from_utf8(output.stdout).expect("text");
    assert_eq!(output.status.code(), Some(1), "{}", words);
    assert!(words.contains("no file in /no/such/folder"), "{}", words);
}

#[test]
fn bad_use_is_told() {
    let bad: [&[&str]; 23] = [
        &[],
        &["compare"],
        &["answer", "notes"],
        &["answer", "logs", "more"],
        &["compare", "logs"],
        &["compare", "logs", "--"],
        &["compare", "logs", "--seed", "x", "--", "cat"],
        &["compare", "entries", "--cases", "5", "--", "cat"],
        &["answer", "blocks", "more"],
        &["compare", "blocks", "--"],
        &["compare", "makeblock", "--cases", "x", "--", "cat"],
        &["answer", "trace", "more"],
        &["compare", "trace", "--cases", "x", "--", "cat"],
        &["replay", "more"],
        &["compare", "replay", "--"],
        &["compare", "failures"],
        &["compare", "failures", "--"],
        &["compare", "failures", "--", "notes", "cat"],
        &["compare", "failures", "--", "replay"],
        &["compare", "failures", "--cases", "5", "--", "replay", "cat"],
        &["night", "5"],
        &["night", "five", "1"],
        &["night", "5", "1", "more"],
    ];
    for words in bad {
        let output = second(words, b"");
        assert_eq!(output.status.code(), Some(2), "{:?}", words);
        assert!(
            !output.stderr.is_empty() && output.stdout.is_empty(),
            "{:?}",
            words
        );
    }
}
