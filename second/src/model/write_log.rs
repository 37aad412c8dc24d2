//! The bench log's writer, from document 01, 'Bench log': numbers and entries as bytes.

/// The shortest form of a number.
pub fn shortest(value: u32) -> Vec<u8> {
    let mut rest = value;
    let mut bytes = Vec::new();
    while rest >= 0x80 {
        bytes.push(rest as u8 | 0x80);
        rest >>= 7;
    }
    bytes.push(rest as u8);
    bytes
}

/// The bytes of numbers, one behind the other.
pub fn numbers_bytes(numbers: &[u32]) -> Vec<u8> {
    numbers.iter().flat_map(|value| shortest(*value)).collect()
}

/// An entry as the bytes of its numbers.
pub fn numbers_of(kind: usize, arguments: &[u32]) -> Vec<Vec<u8>> {
    let kind = std::iter::once(shortest(kind as u32));
    kind.chain(arguments.iter().map(|value| shortest(*value)))
        .collect()
}

/// The bytes of an entry of this kind with these arguments.
pub fn entry_bytes(kind: usize, arguments: &[u32]) -> Vec<u8> {
    numbers_of(kind, arguments).concat()
}
