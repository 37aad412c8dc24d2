//! The command line: what is asked for, and the words of the help.

use crate::compare::blocks::DEFAULT_BLOCKS;
use crate::compare::logs::DEFAULT_CASES;
use crate::compare::makeblock::DEFAULT_REQUESTS;
use crate::compare::replay::DEFAULT_LOGS;
use crate::compare::trace::DEFAULT_RUNS;
use crate::inputs::rng::DEFAULT_SEED;
use crate::listings::kind::{Kind, KINDS};
use std::ffi::OsString;

pub const HELP: &str = "\
second: the independent second program. It reads the papers its own way and
compares the proved programs' listings (docs/FORMATS.md) with its own.

  second compare logs [--seed N] [--cases N] -- COMMAND [ARGS..]
      Random and damaged logs in the format of logcases. COMMAND reads them on
      standard input, a few thousand in one run. N cases are made (24000 unless
      said otherwise), besides the fixed ones. A mismatch is shrunk.
  second compare entries [--seed N] -- COMMAND [ARGS..]
      Whole logs in the format of entries, each in a run of COMMAND of its own.
  second compare blocks [--seed N] [--cases N] -- COMMAND [ARGS..]
      Good and broken captures in the format of blocks, each in a run of
      COMMAND of its own, two runs at a time. N random ones are made (2000
      unless said otherwise), besides the fixed and the long ones.
  second compare makeblock [--seed N] [--cases N] -- COMMAND [ARGS..]
      Events to write in the format of makeblock, run likewise. N random ones
      are made (1200 unless said otherwise), besides the fixed ones.
  second compare trace [--seed N] [--cases N] -- COMMAND [ARGS..]
      Logs for a V260, a V560 or a V830 in the format of trace, run likewise.
      N random whole runs of each module are made (1200 unless said otherwise),
      of the V830 half as many again, besides broken heads and logs, the fixed
      and the long ones. A ledger checks what is printed of every V830 run.
  second compare replay [--seed N] [--cases N] -- COMMAND [ARGS..]
      Bench logs of a V830 in the format of replay, run likewise. N random
      whole logs are made (1200 unless said otherwise), besides broken ones,
      the fixed ones, logs cut at each of their last bytes, logs fed in small
      pieces, logs and listings longer than 65,536 bytes, and logs whose longest
      entries lie over an edge of these at every split, whole and cut. A long
      log is a file in TMPDIR, removed at once; a shorter one comes by a pipe.
  second compare failures [--seed N] -- KIND COMMAND [ARGS..]
      Inputs of KIND (one of the above) whose reading fails behind some byte with
      error 11, each in a run of COMMAND of its own: short ones at every byte,
      random ones, and about a buffer's edge of 65,536 bytes. COMMAND must list
      what second answer KIND does, ending in: failed read 11.
  second answer logs
      Reads cases on standard input, prints the listing of logcases.
  second answer entries
      Reads a log on standard input, prints the listing of entries.
  second answer blocks
      Reads a capture on standard input, prints the listing of blocks.
  second answer makeblock
      Reads an event to write on standard input, prints the listing of makeblock.
  second answer trace
      Reads a head and a log on standard input, prints the listing of trace.
  second answer replay, or second replay
      Reads a log on standard input, prints the listing of replay.
  second night ENTRIES SEED
      Prints a bench log of so many mixed entries, for measuring how fast a
      replay is: Channel Enable of four channels, Control A1 (random trigger,
      header, AUTO RESET), then pulses (40 %), memory reads (37 %), triggers
      (8 %), other reads and writes, VETO for a short while, TEST, CLEAR,
      MAN CLR and refused accesses. It has no fault, and the same ENTRIES and
      SEED give the same bytes.
  second --help
      Prints this.

An answer whose reading fails is the listing of the bytes read until then; it
ends in the line: failed read NUMBER, unless a fault before it has ended it.

Exit code: 0 all agree; 1 a mismatch, COMMAND failed, an answer never
occurred, or a read failed; 2 bad use. The seed is fixed unless --seed gives
another.
";

/// The number of random cases of a kind unless another is asked for; none where it cannot be.
fn default_cases(kind: Kind) -> Option<usize> {
    match kind {
        Kind::Logs => Some(DEFAULT_CASES),
        Kind::Entries => None,
        Kind::Blocks => Some(DEFAULT_BLOCKS),
        Kind::Makeblock => Some(DEFAULT_REQUESTS),
        Kind::Trace => Some(DEFAULT_RUNS),
        Kind::Replay => Some(DEFAULT_LOGS),
    }
}

/// What is asked for.
#[derive(Debug, PartialEq, Eq)]
pub enum Use {
    Help,
    Answer(Kind),
    Night {
        entries: usize,
        seed: u64,
    },
    Failures {
        kind: Kind,
        seed: u64,
        command: Vec<OsString>,
    },
    Compare {
        kind: Kind,
        seed: u64,
        cases: usize,
        command: Vec<OsString>,
    },
}

/// Reads the command line; words on bad use.
pub fn parse(words: &[OsString]) -> Result<Use, String> {
    let word = |position: usize| words.get(position).map(|word| word.to_string_lossy());
    match word(0).as_deref() {
        None => Err("nothing is asked for".to_string()),
        Some("--help") | Some("-h") | Some("help") => Ok(Use::Help),
        Some("answer") => {
            let kind = parse_kind(word(1).as_deref())?;
            ended(&words[2..], Use::Answer(kind))
        }
        Some("replay") => ended(&words[1..], Use::Answer(Kind::Replay)),
        Some("night") => {
            let entries = parse_number("ENTRIES", words.get(1))?;
            let seed = parse_number("SEED", words.get(2))?;
            ended(&words[3..], Use::Night { entries, seed })
        }
        Some("compare") if word(1).as_deref() == Some("failures") => parse_failures(&words[2..]),
        Some("compare") => parse_compare(parse_kind(word(1).as_deref())?, &words[2..]),
        Some(other) => Err(format!(
            "'{}' is none of compare, answer, replay and night",
            other
        )),
    }
}

/// What is asked for, if no words are left.
fn ended(rest: &[OsString], asked: Use) -> Result<Use, String> {
    match rest.first() {
        None => Ok(asked),
        Some(extra) => Err(format!(
            "'{}' is one word too many",
            extra.to_string_lossy()
        )),
    }
}

/// Reads what a comparison or an answer is about.
fn parse_kind(word: Option<&str>) -> Result<Kind, String> {
    let named = |word: &str| KINDS.iter().find(|(name, _)| *name == word);
    match word {
        Some(word) => named(word).map(|(_, kind)| *kind).ok_or_else(|| {
            format!(
                "'{}' is none of logs, entries, blocks, makeblock, trace and replay",
                word
            )
        }),
        None => Err("logs, entries, blocks, makeblock, trace or replay must be named".to_string()),
    }
}

/// The options of a comparison and the words behind them.
struct Options {
    seed: u64,
    cases: usize,
    behind: Vec<OsString>,
}

/// Reads the options of a comparison, `--cases` only where it has a default, and the words behind `--`.
fn parse_options(default_cases: Option<usize>, words: &[OsString]) -> Result<Options, String> {
    let (mut seed, mut cases) = (DEFAULT_SEED, default_cases.unwrap_or(0));
    let mut rest = words.iter();
    while let Some(word) = rest.next() {
        match word.to_string_lossy().as_ref() {
            "--" => {
                let behind = rest.cloned().collect();
                return Ok(Options {
                    seed,
                    cases,
                    behind,
                });
            }
            "--seed" => seed = parse_number("--seed", rest.next())?,
            "--cases" if default_cases.is_some() => {
                cases = parse_number("--cases", rest.next())?;
            }
            other => return Err(format!("'{}' is not known here", other)),
        }
    }
    Err("-- and a COMMAND are missing".to_string())
}

/// Reads a comparison of a kind.
fn parse_compare(kind: Kind, words: &[OsString]) -> Result<Use, String> {
    let options = parse_options(default_cases(kind), words)?;
    Ok(Use::Compare {
        kind,
        seed: options.seed,
        cases: options.cases,
        command: command_of(&options.behind)?,
    })
}

/// Reads a comparison of failures, whose kind stands in front of COMMAND.
fn parse_failures(words: &[OsString]) -> Result<Use, String> {
    let options = parse_options(None, words)?;
    let kind = options.behind.first().map(|word| word.to_string_lossy());
    Ok(Use::Failures {
        kind: parse_kind(kind.as_deref())?,
        seed: options.seed,
        command: command_of(&options.behind[1..])?,
    })
}

/// The words as a COMMAND, if there are any.
fn command_of(words: &[OsString]) -> Result<Vec<OsString>, String> {
    match words {
        [] => Err("no COMMAND behind --".to_string()),
        _ => Ok(words.to_vec()),
    }
}

/// Reads the decimal number behind an option, or that a place is for.
fn parse_number<T: std::str::FromStr>(option: &str, word: Option<&OsString>) -> Result<T, String> {
    let word = word.map(|word| word.to_string_lossy());
    word.as_deref()
        .and_then(|word| word.parse().ok())
        .ok_or_else(|| format!("{} takes a decimal number", option))
}
