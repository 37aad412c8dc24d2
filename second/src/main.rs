//! The independent second program: its own reading of the papers, and the comparison with the
//! proved programs by running both on the same inputs.

#![forbid(unsafe_code)]

mod compare;
mod inputs;
mod listings;
mod model;
mod use_words;

#[cfg(test)]
mod cases;
#[cfg(test)]
mod wrong;

use compare::blocks::compare_blocks;
use compare::difference::Verdict;
use compare::entries::compare_entries;
use compare::failures::compare_failures;
use compare::logs::compare_logs;
use compare::makeblock::compare_makeblock;
use compare::replay::compare_replay;
use compare::run;
use compare::trace::compare_trace;
use inputs::replay::night::write_night;
use listings::end::{is_cut, read_all, End};
use listings::kind::Kind;
use std::fs::File;
use std::io::{self, Write};
use std::os::unix::io::AsFd;
use std::process::ExitCode;
use use_words::Use;

/// Does what the command line asks for.
fn main() -> ExitCode {
    let words: Vec<_> = std::env::args_os().skip(1).collect();
    let (text, code) = match use_words::parse(&words) {
        Ok(Use::Help) => (use_words::HELP.to_string(), 0),
        Ok(Use::Answer(kind)) => return answer(kind),
        Ok(Use::Night { entries, seed }) => {
            return match write_night(&mut io::stdout().lock(), entries, seed) {
                Ok(()) => ExitCode::SUCCESS,
                Err(error) => complain(&format!("standard output: {}", error), 1),
            };
        }
        Ok(Use::Failures {
            kind,
            seed,
            command,
        }) => {
            let program = |input: &[u8], most: usize| run::run_failing(&command, input, most);
            let verdict = compare_failures(&program, kind, seed);
            (verdict.words, u8::from(!verdict.agreed))
        }
        Ok(Use::Compare {
            kind,
            seed,
            cases,
            command,
        }) => {
            let verdict = compare(kind, seed, cases, &command);
            (verdict.words, u8::from(!verdict.agreed))
        }
        Err(fault) => return complain(&format!("{}; see second --help", fault), 2),
    };
    print(&text, ExitCode::from(code))
}

/// Says on standard error what is wrong.
fn complain(words: &str, code: u8) -> ExitCode {
    eprintln!("second: {}", words);
    ExitCode::from(code)
}

/// Prints a text; the exit code, if that is done.
fn print(text: &str, code: ExitCode) -> ExitCode {
    match io::stdout().write_all(text.as_bytes()) {
        Ok(()) => code,
        Err(error) => complain(&format!("standard output: {}", error), 1),
    }
}

/// Prints this program's own listing of standard input, and says if a failed read cut it.
fn answer(kind: Kind) -> ExitCode {
    // As a file: Stdin itself takes a standard input that cannot be read for an empty one.
    let (input, end) = match io::stdin().as_fd().try_clone_to_owned() {
        Ok(input) => read_all(&mut File::from(input)),
        Err(error) => return complain(&format!("standard input: {}", error), 1),
    };
    let listing = kind.listing(&input, end);
    let printed = print(&listing, ExitCode::SUCCESS);
    match end {
        End::Failed(number) if is_cut(&listing) => {
            let error = io::Error::from_raw_os_error(number);
            complain(&format!("standard input: {}", error), 1)
        }
        _ => printed,
    }
}

/// The comparison asked for.
fn compare(kind: Kind, seed: u64, cases: usize, command: &[std::ffi::OsString]) -> Verdict {
    let program = |input: &[u8], most: usize| run::run(command, input, most);
    match kind {
        Kind::Logs => compare_logs(&program, seed, cases),
        Kind::Entries => compare_entries(&program, seed),
        Kind::Blocks => compare_blocks(&program, seed, cases),
        Kind::Makeblock => compare_makeblock(&program, seed, cases),
        Kind::Trace => compare_trace(&program, seed, cases),
        Kind::Replay => {
            let filled = |input: &[u8], most: usize| run::run_filled(command, input, most);
            let in_pieces = |input: &[u8], most: usize| run::run_in_pieces(command, input, most);
            compare_replay(&filled, &in_pieces, seed, cases)
        }
    }
}
