//! The register tables: what the V260 and the V560 both have, and how a table is looked up.

/// What stands at an offset.
#[derive(Clone, Copy, Debug, PartialEq, Eq)]
pub enum Register {
    Vector,
    Level,
    Enable,
    Disable,
    RemoveRequest,
    Request,
    /// A counter's own offset.
    Counter(usize),
    /// A counter's offset + 2.
    LowerHalf(usize),
    Clear,
    VetoSet,
    VetoReset,
    ScaleIncrease,
    Status,
    /// The V830's memory window, at each of its offsets.
    Memory,
    ChannelEnable,
    Control,
    BitSet,
    BitClear,
    SoftwareReset,
    SoftwareClear,
    SoftwareTrigger,
    TriggerCounter,
    EventNumber,
}

use Register::*;

/// The directions that a register takes.
#[derive(Clone, Copy, Debug, PartialEq, Eq)]
pub enum Directions {
    ReadOnly,
    WriteOnly,
    ReadWrite,
}

use Directions::*;

/// One row of a table.
#[derive(Clone, Copy, Debug, PartialEq, Eq)]
pub struct Row {
    pub offset: u32,
    pub register: Register,
    pub widths: &'static [u32],
    pub directions: Directions,
}

/// A module's table, in three parts: V260 and V560, its own rows, those that both modules have and
/// the counters; V830, its registers, the counters and the memory window.
pub type Table = [&'static [Row]; 3];

/// A row of a register that is accessible in D16 mode only (4.2 of both manuals).
pub const fn word_row(offset: u32, register: Register, directions: Directions) -> Row {
    Row {
        offset,
        register,
        widths: &[16],
        directions,
    }
}

/// A row of a register that is accessible in D32 mode only.
pub const fn long_row(offset: u32, register: Register, directions: Directions) -> Row {
    Row {
        offset,
        register,
        widths: &[32],
        directions,
    }
}

/// The registers, other than counters, whose rows are alike in table 4.1 of 000 and of 001.
pub const SHARED_ROWS: [Row; 8] = [
    word_row(0x08, Enable, ReadWrite),
    word_row(0x0A, Disable, ReadWrite),
    word_row(0x0C, RemoveRequest, ReadWrite),
    word_row(0x50, Clear, ReadWrite),
    word_row(0x52, VetoSet, ReadWrite),
    word_row(0x54, VetoReset, ReadWrite),
    word_row(0x56, ScaleIncrease, ReadWrite),
    word_row(0x58, Status, ReadOnly),
];

/// The counters, %10 to %4C: D16 and D32 at the offset, D16 only at offset + 2 (document 01).
pub const COUNTER_ROWS: [Row; 32] = counter_rows();

/// Two rows for each of the sixteen counters.
const fn counter_rows() -> [Row; 32] {
    let mut rows = [word_row(0, Status, ReadOnly); 32];
    let mut channel = 0;
    while channel < 16 {
        let offset = 0x10 + 4 * channel as u32;
        rows[2 * channel] = Row {
            offset,
            register: Counter(channel),
            widths: &[16, 32],
            directions: ReadOnly,
        };
        rows[2 * channel + 1] = word_row(offset + 2, LowerHalf(channel), ReadOnly);
        channel += 1;
    }
    rows
}

/// The register at an offset that takes this width and direction, or the number of the refusal.
pub fn find(table: &Table, offset: u32, width: u32, write: bool) -> Result<Register, u32> {
    let mut rows = table.iter().copied().flatten();
    let row = rows.find(|row| row.offset == offset).ok_or(1u32)?;
    if !row.widths.contains(&width) {
        return Err(2);
    }
    match (row.directions, write) {
        (ReadOnly, true) | (WriteOnly, false) => Err(3),
        _ => Ok(row.register),
    }
}

#[cfg(test)]
mod tests {
    use super::*;

    #[test]
    fn counters_stand_where_the_manuals_say() {
        let rows = COUNTER_ROWS;
        let places = [(0, 0x10), (1, 0x14), (6, 0x28), (14, 0x48), (15, 0x4C)];
        for (channel, offset) in places {
            assert_eq!(rows[2 * channel].offset, offset);
            assert_eq!(rows[2 * channel].register, Counter(channel));
            assert_eq!(rows[2 * channel + 1].offset, offset + 2);
            assert_eq!(rows[2 * channel + 1].widths, [16]);
        }
    }

    #[test]
    fn the_offset_is_looked_at_before_the_width_and_that_before_the_direction() {
        let table: Table = [&[], &SHARED_ROWS, &COUNTER_ROWS];
        assert_eq!(find(&table, 0x11, 8, true), Err(1));
        assert_eq!(find(&table, 0x10, 8, true), Err(2));
        assert_eq!(find(&table, 0x10, 16, true), Err(3));
        assert_eq!(find(&table, 0x10, 32, false), Ok(Counter(0)));
        assert_eq!(find(&table, 0x12, 32, true), Err(2));
        assert_eq!(find(&table, 0x12, 16, false), Ok(LowerHalf(0)));
        assert_eq!(find(&table, 0x58, 32, true), Err(2));
        assert_eq!(find(&table, 0x58, 16, true), Err(3));
        assert_eq!(find(&table, 0x50, 16, true), Ok(Clear));
    }
}
