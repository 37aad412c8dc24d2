//! What a program under test printed of a V830 run, read back.

use crate::listings::trace_head::TITLE_830;
use crate::model::block::CHANNELS;

/// The numbers in front of the counts, and all numbers of a line.
const FRONT: usize = 11;
const NUMBERS: usize = FRONT + CHANNELS;

/// One line of numbers.
#[derive(Clone, Copy, Debug, PartialEq, Eq)]
pub struct Line([u32; NUMBERS]);

impl Line {
    /// A line, if it is one of so many numbers.
    fn read(text: &str) -> Option<Line> {
        let mut line = Line([0; NUMBERS]);
        let mut words = text.split(' ');
        for number in &mut line.0 {
            *number = words.next()?.parse().ok()?;
        }
        Some(line).filter(|_| words.next().is_none())
    }

    pub fn answer(&self) -> u32 {
        self.0[1]
    }

    pub fn value(&self) -> u32 {
        self.0[2]
    }

    pub fn control(&self) -> u32 {
        self.0[4]
    }

    pub fn enable(&self) -> u32 {
        self.0[5]
    }

    pub fn triggers(&self) -> u32 {
        self.0[6]
    }

    pub fn veto(&self) -> u32 {
        self.0[7]
    }

    pub fn capacity(&self) -> u32 {
        self.0[8]
    }

    pub fn first(&self) -> u32 {
        self.0[9]
    }

    pub fn stored(&self) -> u32 {
        self.0[10]
    }

    pub fn counts(&self) -> [u32; CHANNELS] {
        let mut counts = [0; CHANNELS];
        counts.copy_from_slice(&self.0[FRONT..]);
        counts
    }

    /// All that the module holds.
    pub fn columns(&self) -> &[u32] {
        &self.0[3..]
    }
}

/// A whole listing.
#[derive(Clone, Debug, PartialEq, Eq)]
pub struct Printed {
    pub lines: Vec<Line>,
    pub memory: Vec<u32>,
}

impl Printed {
    /// A listing, if it is one of a V830: the title, lines of numbers, at most one fault, the memory.
    pub fn read(listing: &[u8]) -> Option<Printed> {
        let text = std::str::from_utf8(listing).ok()?;
        let text = text.strip_prefix(TITLE_830)?.strip_suffix('\n')?;
        let (front, last) = text.rsplit_once('\n')?;
        let mut words = last.split(' ');
        words.next().filter(|name| *name == "memory")?;
        let memory: Result<Vec<u32>, _> = words.map(str::parse).collect();
        let mut lines: Vec<&str> = front.split('\n').collect();
        if lines
            .last()
            .map_or(false, |line| line.starts_with("fault "))
        {
            lines.pop();
        }
        let lines: Option<Vec<Line>> = lines.into_iter().map(Line::read).collect();
        Some(Printed {
            lines: lines?,
            memory: memory.ok()?,
        })
    }

    /// The words stored at the end, the oldest first, by the last line.
    pub fn stored_words(&self) -> Result<Vec<u32>, String> {
        let last = self.lines.last().ok_or("no line is printed")?;
        let at = |word: u32| {
            let place = (u64::from(last.first()) + u64::from(word)) % u64::from(last.capacity());
            self.memory.get(place as usize).copied()
        };
        let words: Option<Vec<u32>> = match last.stored() <= last.capacity() {
            true => (0..last.stored()).map(at).collect(),
            false => None,
        };
        words.ok_or_else(|| "stored words outside the memory".to_string())
    }
}
