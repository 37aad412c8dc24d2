//! Runs the compared COMMAND: bytes into its standard input, its listing out.

use std::env;
use std::ffi::OsString;
use std::fs::{self, File};
use std::io::{self, Read, Seek, Write};
use std::os::unix::io::OwnedFd;
use std::os::unix::net::UnixStream;
use std::process::{self, Child, ChildStdin, Command, ExitStatus, Stdio};
use std::sync::atomic::{AtomicUsize, Ordering};
use std::sync::mpsc::{channel, Receiver};
use std::thread;
use std::time::{Duration, Instant};

/// How long one run may take.
const TIME_LIMIT: Duration = Duration::from_secs(60);
/// How much of the complaints on standard error is kept.
const COMPLAINT_LENGTH: usize = 2_000;

/// The pieces in which an input is fed where it is fed so, over and over, and the pause before each.
const PIECES: [usize; 6] = [1, 7, 4_095, 3, 61, 2];
const PAUSE: Duration = Duration::from_millis(1);

/// Inputs of so many bytes or more are long: those of a buffer of 65,536 bytes, and those that end just before it.
const LONG: usize = 65_000;

/// The number of the system for a read that would have to wait: how a read fails where it is made to fail.
pub const FAILURE: i32 = 11;

/// Why a run gave no listing.
#[derive(Debug)]
pub enum Trouble {
    /// It could not be started, or did not end: no other input can help.
    Hopeless(String),
    /// It died on this input.
    Died(String),
}

/// A program under comparison: an input and the most bytes of listing worth reading, to its listing.
pub type Program<'a> = dyn Fn(&[u8], usize) -> Result<Vec<u8>, Trouble> + Sync + 'a;

/// The command as it was given, for messages.
pub fn shown(command: &[OsString]) -> String {
    let words: Vec<_> = command.iter().map(|word| word.to_string_lossy()).collect();
    words.join(" ")
}

/// Runs the command once; of its listing at most `most` bytes and one more are read.
pub fn run(command: &[OsString], input: &[u8], most: usize) -> Result<Vec<u8>, Trouble> {
    run_fed(command, input, most, feed)
}

/// Runs the command likewise, its input fed in small uneven pieces with pauses.
pub fn run_in_pieces(command: &[OsString], input: &[u8], most: usize) -> Result<Vec<u8>, Trouble> {
    run_fed(command, input, most, feed_in_pieces)
}

/// Runs the command likewise, a long input being a file: every read of it gives all that is asked for, up
/// to the end, which a read of a pipe need not.
pub fn run_filled(command: &[OsString], input: &[u8], most: usize) -> Result<Vec<u8>, Trouble> {
    if input.len() < LONG {
        return run(command, input, most);
    }
    let file = nameless_file(input).map_err(|error| {
        let folder = env::temp_dir();
        Trouble::Hopeless(format!("no file in {}: {}", folder.display(), error))
    })?;
    listing_of(start(command, Stdio::from(file))?, command, most)
}

/// Runs the command likewise, on an input whose reading fails behind its last byte: it is a socket that holds these
/// bytes, has not ended and does not wait.
pub fn run_failing(command: &[OsString], input: &[u8], most: usize) -> Result<Vec<u8>, Trouble> {
    let (kept, given) = failing_input(input).map_err(|error| {
        Trouble::Hopeless(format!("no input that fails can be made: {}", error))
    })?;
    let listing = listing_of(start(command, Stdio::from(given))?, command, most);
    drop(kept);
    listing
}

/// Runs the command once, its input fed so.
fn run_fed(
    command: &[OsString],
    input: &[u8],
    most: usize,
    feed: fn(ChildStdin, Vec<u8>),
) -> Result<Vec<u8>, Trouble> {
    let mut child = start(command, Stdio::piped())?;
    feed(child.stdin.take().expect("piped"), input.to_vec());
    listing_of(child, command, most)
}

/// The listing of the command as it was started.
fn listing_of(mut child: Child, command: &[OsString], most: usize) -> Result<Vec<u8>, Trouble> {
    let deadline = Instant::now() + TIME_LIMIT;
    let listing = collect(child.stdout.take().expect("piped"), most + 1);
    let complaint = collect(child.stderr.take().expect("piped"), COMPLAINT_LENGTH);
    let listing = match listing.recv_timeout(TIME_LIMIT) {
        Ok(listing) => listing,
        Err(_) => return Err(give_up(&mut child, command)),
    };
    if listing.len() > most {
        stop(&mut child);
        return Ok(listing);
    }
    let status = match wait(&mut child, deadline) {
        Some(status) => status,
        None => return Err(give_up(&mut child, command)),
    };
    if ended_well(status, &listing) {
        return Ok(listing);
    }
    let complaint = complaint.recv_timeout(Duration::from_secs(1));
    Err(Trouble::Died(format!(
        "{} died ({}) after {} bytes of listing; it said: {}",
        shown(command),
        status,
        listing.len(),
        String::from_utf8_lossy(&complaint.unwrap_or_default()).trim()
    )))
}

/// A standard input that gives these bytes and then fails, as long as the other end is kept.
fn failing_input(bytes: &[u8]) -> io::Result<(UnixStream, OwnedFd)> {
    let (mut kept, given) = UnixStream::pair()?;
    for end in [&kept, &given] {
        // Ours too: bytes that the socket cannot hold are an error, not a wait without end.
        end.set_nonblocking(true)?;
    }
    kept.write_all(bytes)?;
    Ok((kept, OwnedFd::from(given)))
}

/// A file in the system's temporary folder, of this content and open at its beginning. Its name is
/// removed at once, so that nothing is left of it, whatever ends this program.
fn nameless_file(content: &[u8]) -> io::Result<File> {
    static FILES: AtomicUsize = AtomicUsize::new(0);
    let number = FILES.fetch_add(1, Ordering::SeqCst);
    let path = env::temp_dir().join(format!("second-{}-{}", process::id(), number));
    let mut file = File::options()
        .read(true)
        .write(true)
        .create_new(true)
        .open(&path)?;
    fs::remove_file(&path)?;
    file.write_all(content)?;
    file.rewind()?;
    Ok(file)
}

/// Starts the command with this standard input, its other two streams piped.
fn start(command: &[OsString], input: Stdio) -> Result<Child, Trouble> {
    Command::new(&command[0])
        .args(&command[1..])
        .stdin(input)
        .stdout(Stdio::piped())
        .stderr(Stdio::piped())
        .spawn()
        .map_err(|error| {
            Trouble::Hopeless(format!("{} cannot be started: {}", shown(command), error))
        })
}

/// Writes the input from a thread, so that full pipes never stop both sides.
fn feed(mut pipe: ChildStdin, input: Vec<u8>) {
    thread::spawn(move || {
        // A command may stop reading at a fault: a closed pipe is no trouble here.
        let _ = pipe.write_all(&input);
    });
}

/// Writes the input from a thread in pieces, one write each.
fn feed_in_pieces(mut pipe: ChildStdin, input: Vec<u8>) {
    thread::spawn(move || {
        let mut rest = &input[..];
        for size in PIECES.iter().cycle() {
            let (piece, behind) = rest.split_at(rest.len().min(*size));
            thread::sleep(PAUSE);
            if rest.is_empty() || pipe.write_all(piece).is_err() {
                return;
            }
            rest = behind;
        }
    });
}

/// Reads at most `most` bytes of a pipe in a thread.
fn collect(mut pipe: impl Read + Send + 'static, most: usize) -> Receiver<Vec<u8>> {
    let (sender, receiver) = channel();
    thread::spawn(move || {
        let mut bytes = Vec::new();
        let _ = pipe.by_ref().take(most as u64).read_to_end(&mut bytes);
        let _ = sender.send(bytes);
        let _ = io::copy(&mut pipe, &mut io::sink());
    });
    receiver
}

/// Waits for the command's end, not longer than the deadline.
fn wait(child: &mut Child, deadline: Instant) -> Option<ExitStatus> {
    while Instant::now() < deadline {
        match child.try_wait() {
            Ok(Some(status)) => return Some(status),
            Ok(None) => thread::sleep(Duration::from_micros(200)),
            Err(_) => return None,
        }
    }
    None
}

/// Ends a command that went on for too long.
fn stop(child: &mut Child) {
    let _ = child.kill();
    let _ = child.wait();
}

/// Ends a command that does not end by itself, and says so.
fn give_up(child: &mut Child, command: &[OsString]) -> Trouble {
    stop(child);
    let limit = TIME_LIMIT.as_secs();
    Trouble::Hopeless(format!(
        "{} did not end within {} s and was stopped",
        shown(command),
        limit
    ))
}

/// Whether the command ended of its own will: docs/FORMATS.md fixes no exit code behind a fault line or that of a
/// failed read.
fn ended_well(status: ExitStatus, listing: &[u8]) -> bool {
    let text = listing.strip_suffix(b"\n").unwrap_or(listing);
    let mut lines = text.rsplit(|byte| *byte == b'\n');
    // A V830's memory stands behind the fault line.
    let last = lines.find(|line| !line.starts_with(b"memory"));
    let told = [&b"fault "[..], b"failed read "];
    let fault = last.map_or(false, |line| {
        told.iter().any(|begin| line.starts_with(begin))
    });
    status.success() || (status.code().is_some() && fault)
}

#[cfg(test)]
mod tests {
    use super::*;

    #[test]
    fn pieces_arrive_apart_and_whole() {
        let input: Vec<u8> = (0..100_000u32).map(|place| place as u8).collect();
        let cat = [OsString::from("cat")];
        for fed in [run, run_in_pieces, run_filled] {
            assert_eq!(fed(&cat, &input, 200_000).expect("a copy"), input);
        }
        // One read takes what is there by then, which is not all.
        let once = ["dd", "bs=200000", "count=1", "status=none"].map(OsString::from);
        let first = run_in_pieces(&once, &input, 200_000).expect("a part");
        assert!(first.len() < input.len(), "{} bytes", first.len());
        assert!(input.starts_with(&first) && !first.is_empty());
    }

    #[test]
    fn each_read_of_a_long_input_is_filled_up_to_the_end() {
        let input: Vec<u8> = (0..150_000u32).map(|place| place as u8).collect();
        for (before, piece) in input.chunks(65_536).enumerate() {
            let reads = format!("dd bs=65536 count={} of=/dev/null", before);
            let script = format!("{} && exec dd bs=65536 count=1", reads);
            let command = ["sh", "-c", &script].map(OsString::from);
            let read = run_filled(&command, &input, 200_000).expect("a part");
            assert_eq!(read, piece);
        }
    }

    #[test]
    fn a_read_fails_behind_the_input() {
        let command = ["sh", "-c", "cat; echo $?"].map(OsString::from);
        for length in [0, 1, 70_000] {
            let input = vec![b'7'; length];
            let listing = run_failing(&command, &input, 200_000).expect("a copy");
            assert_eq!(listing, [&input[..], b"1\n"].concat());
        }
        // More than a socket holds is no input that can be made.
        let trouble = run_failing(&command, &vec![0; 50_000_000], 10);
        assert!(
            matches!(trouble, Err(Trouble::Hopeless(_))),
            "{:?}",
            trouble
        );
    }

    #[test]
    fn words_on_standard_error_are_ignored_however_long() {
        let script = "head -c 3000000 /dev/zero >&2; cat; echo fault 33 0 >&2";
        let command = ["sh", "-c", script].map(OsString::from);
        assert_eq!(run(&command, &[7; 9], 100).expect("a copy"), [7; 9]);
    }
}
