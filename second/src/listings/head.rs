//! The numbers of a head, and the line that ends a listing with a fault.

use crate::model::log::{number_at, OUT_OF_RANGE};
use std::fmt::Write;

/// The numbers of the head at `place`, each at most its `largest`, and the place after them.
pub fn head_numbers<const N: usize>(
    input: &[u8],
    place: usize,
    largest: &[u32; N],
) -> Result<([u32; N], usize), u32> {
    let mut numbers = [0; N];
    let mut next = place;
    for (number, largest) in numbers.iter_mut().zip(largest) {
        let (value, after) = number_at(input, next)?;
        if value > *largest {
            return Err(OUT_OF_RANGE);
        }
        *number = value;
        next = after;
    }
    Ok((numbers, next))
}

/// Adds the line that ends a listing with a fault.
pub fn put_fault(listing: &mut String, answer: u32, place: usize) {
    writeln!(listing, "fault {} {}", answer, place).expect("a String takes every line");
}

/// Adds numbers, separated by single blanks, as a line.
pub fn put_numbers(listing: &mut String, numbers: &[u32]) {
    for (position, number) in numbers.iter().enumerate() {
        if position > 0 {
            listing.push(' ');
        }
        put_number(listing, *number);
    }
    listing.push('\n');
}

/// Adds a name and numbers, each behind a single blank, as a line.
pub fn put_words(listing: &mut String, name: &str, numbers: &[u32]) {
    *listing += name;
    for number in numbers {
        listing.push(' ');
        put_number(listing, *number);
    }
    listing.push('\n');
}

/// Adds a number.
fn put_number(listing: &mut String, number: u32) {
    match number {
        0 => listing.push('0'),
        _ => write!(listing, "{}", number).expect("a String takes every line"),
    }
}

#[cfg(test)]
mod tests {
    use super::*;

    #[test]
    fn the_first_fault_of_a_head() {
        let largest = [1, 1, u32::MAX];
        let head = |bytes: &[u8]| head_numbers(bytes, 0, &largest);
        assert_eq!(head(&[1, 0, 0xAC, 0x02, 9]), Ok(([1, 0, 300], 4)));
        assert_eq!(head(&[]), Err(30));
        assert_eq!(head(&[1, 0]), Err(30));
        assert_eq!(head(&[2]), Err(34));
        assert_eq!(head(&[0, 2, 0x80, 0]), Err(34));
        assert_eq!(head(&[0x80, 0, 2]), Err(31));
        assert_eq!(head(&[0, 0, 0xFF, 0xFF, 0xFF, 0xFF, 0x10]), Err(32));
        assert_eq!(
            head_numbers(&[9, 9, 7], 2, &[7, 7]),
            Err(30),
            "from its place on"
        );
    }

    #[test]
    fn lines_of_numbers() {
        let mut listing = String::new();
        put_numbers(&mut listing, &[7, 0, u32::MAX]);
        put_numbers(&mut listing, &[]);
        put_fault(&mut listing, 30, 12);
        put_words(&mut listing, "memory", &[1, 0]);
        put_words(&mut listing, "memory", &[]);
        assert_eq!(
            listing,
            "7 0 4294967295\n\nfault 30 12\nmemory 1 0\nmemory\n"
        );
    }
}
