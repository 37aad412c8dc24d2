//! An input of one run of COMMAND, and bytes in words.

/// An input of one run, and what it is.
#[derive(Clone, Debug, PartialEq, Eq)]
pub struct Input {
    pub name: String,
    pub bytes: Vec<u8>,
}

impl Input {
    /// An input of this name.
    pub fn new(name: impl ToString, bytes: Vec<u8>) -> Input {
        let name = name.to_string();
        Input { name, bytes }
    }

    /// The input in words, a long one cut short.
    pub fn shown(&self) -> String {
        format!("{}: {}", self.name, hex(&self.bytes))
    }
}

/// How many bytes of a log are shown.
const MOST_SHOWN: usize = 256;

/// A log's bytes in hexadecimal, in words.
pub fn hex(bytes: &[u8]) -> String {
    let digits: Vec<String> = bytes
        .iter()
        .take(MOST_SHOWN)
        .map(|byte| format!("{:02X}", byte))
        .collect();
    match bytes.len() {
        0 => "no bytes".to_string(),
        1 => format!("1 byte: {}", digits[0]),
        length if length <= MOST_SHOWN => format!("{} bytes: {}", length, digits.join(" ")),
        length => format!(
            "{} bytes, the first {}: {}",
            length,
            MOST_SHOWN,
            digits.join(" ")
        ),
    }
}
