//! Makes the logs of `entries`: whole ones, short and long, with every end.

use crate::inputs::input::Input;
use crate::inputs::logs::entries::good_log;
use crate::inputs::logs::random::damage;
use crate::inputs::rng::Rng;

/// Ends of a log with each fault, or none, at each argument; some are followed by a good entry.
pub const ENDS: [&[u8]; 31] = [
    &[0x80],
    &[0x00],
    &[0x00, 0x1F, 0xFF],
    &[0x01],
    &[0x05, 0x00],
    &[0x06, 0x00, 0x10],
    &[0x06, 0xFF, 0xFF, 0x03, 0x20, 0xFF, 0xFF, 0xFF, 0xFF],
    &[0x80, 0x00],
    &[0x82, 0x00, 0x02],
    &[0x00, 0x00, 0x80, 0x80, 0x80, 0x80, 0x00],
    &[0x06, 0x80, 0x00, 0x02],
    &[0x80, 0x80, 0x80, 0x80, 0x10],
    &[0xFF, 0xFF, 0xFF, 0xFF, 0x8F, 0x00],
    &[0x00, 0x00, 0x80, 0x80, 0x80, 0x80, 0x7F, 0x02],
    &[0x08],
    &[0x09, 0x02],
    &[0x88, 0x01],
    &[0xFF, 0xFF, 0xFF, 0xFF, 0x0F],
    &[0x00, 0x20],
    &[0x00, 0x20, 0x02],
    &[0x01, 0x02],
    &[0x05, 0x80, 0x80, 0x04],
    &[0x05, 0x00, 0x11],
    &[0x06, 0x00, 0x21, 0x00],
    &[0x06, 0x00, 0x10, 0x80, 0x80, 0x04],
    &[0x06, 0x00, 0x20, 0x80, 0x80, 0x04],
    &[0x80, 0x02],
    &[0x80, 0x80, 0x04],
    &[0x00, 0x80, 0x02],
    &[0x01, 0x80, 0x02],
    &[0x05, 0x00, 0x90, 0x02],
];

/// The longest entry there is, of ten bytes.
pub const LONGEST_ENTRY: [u8; 10] = [6, 0xFF, 0xFF, 0x03, 0x20, 0xFF, 0xFF, 0xFF, 0xFF, 0x0F];

/// All logs of the comparison.
pub fn make_plain_logs(seed: u64) -> Vec<Input> {
    let mut rng = Rng::new(seed);
    let long = long_log(&mut rng);
    let mut logs = Vec::new();
    let mut add = |name: String, bytes: Vec<u8>| logs.push(Input { name, bytes });
    add("the empty log".to_string(), Vec::new());
    add("the long log".to_string(), long.clone());
    for cut in 1..=12 {
        let bytes = long[..long.len() - cut].to_vec();
        add(format!("the long log less its last {} bytes", cut), bytes);
    }
    for end in ENDS {
        add(format!("the end {:02X?} alone", end), end.to_vec());
        add(
            format!("a long log with the end {:02X?}", end),
            long_log_with(&mut rng, end),
        );
    }
    for shift in 0..LONGEST_ENTRY.len() {
        add(
            format!("the longest entries behind {} entries of one byte", shift),
            [vec![2; shift], LONGEST_ENTRY.repeat(7_000)].concat(),
        );
    }
    for number in 1..=12 {
        add(format!("damaged log {}", number), damaged_log(&mut rng));
    }
    logs
}

/// More than 200,000 bytes of good entries, whose last entry lies across a multiple of 65,536.
fn long_log(rng: &mut Rng) -> Vec<u8> {
    let length = 4 * 65_536 + 4;
    let mut bytes = good_log_below(rng, length - LONGEST_ENTRY.len());
    bytes.resize(length - LONGEST_ENTRY.len(), 3);
    bytes.extend(LONGEST_ENTRY);
    bytes
}

/// Good entries of about 20,000 to 80,000 bytes, and an end.
fn long_log_with(rng: &mut Rng, end: &[u8]) -> Vec<u8> {
    let length = rng.between(20_000, 80_000);
    let mut bytes = good_log_below(rng, length);
    bytes.extend(end);
    bytes
}

/// Good entries, not more than `length` bytes and hardly fewer.
fn good_log_below(rng: &mut Rng, length: usize) -> Vec<u8> {
    let mut bytes = Vec::new();
    while bytes.len() + LONGEST_ENTRY.len() <= length {
        bytes.extend(good_log(rng, 1));
    }
    bytes
}

/// Good entries with one byte damaged, and so at times none.
fn damaged_log(rng: &mut Rng) -> Vec<u8> {
    let entries = rng.below(400);
    let mut bytes = good_log(rng, entries);
    damage(rng, &mut bytes);
    bytes
}
