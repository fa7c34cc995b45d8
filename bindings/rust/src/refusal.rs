//! Why a call is refused.

use std::error::Error;
use std::fmt;

/// Why a call was refused. A call tests the conditions that are named for it, in the order in which they are named, and
/// gives the first that applies.
#[derive(Clone, Copy, Debug, PartialEq, Eq, PartialOrd, Ord, Hash)]
#[repr(u32)]
pub enum Refusal {
    /// 1: the generator is even, or its degree is outside 3 to 16.
    Generator = 1,
    /// 2: L ≤ n or L > 4,096.
    Length = 2,
    /// 3: the limit is 0 or above 4.
    Limit = 3,
    /// 4: the syndrome is 2^n or more.
    Syndrome = 4,
    /// 5: a table has not 2^n entries.
    TableLength = 5,
    /// 6: a table entry is wrong.
    TableEntry = 6,
    /// 7: the mark's pattern is not strictly ascending, has a position not below L, or more positions than the limit.
    Mark = 7,
    /// 8: the output of a page has less than 9 bytes; that of a repair or a simulation is not as long as the packet; the counts of a
    /// simulation are not 45.
    Output = 8,
    /// 9: the range ends before its start, or reaches into the CRC.
    Range = 9,
    /// 10: the field is not whole in the range, or not an even number of bytes from its start; of a repair, only where the range has
    /// a byte. A simulation, like `make`, refuses an empty range by it.
    Field = 10,
    /// 11: the initial or the final value is 2^n or more.
    Values = 11,
    /// 12: the rows or the columns of a block are outside 1 to 64.
    BlockShape = 12,
    /// 13: a block's input or output has not as many bytes as rows times columns.
    BlockLength = 13,
    /// 14: no trials, or more than 65,535.
    Trials = 14,
}

impl Refusal {
    /// Every refusal, lowest number first.
    pub const ALL: [Refusal; 14] = [
        Refusal::Generator,
        Refusal::Length,
        Refusal::Limit,
        Refusal::Syndrome,
        Refusal::TableLength,
        Refusal::TableEntry,
        Refusal::Mark,
        Refusal::Output,
        Refusal::Range,
        Refusal::Field,
        Refusal::Values,
        Refusal::BlockShape,
        Refusal::BlockLength,
        Refusal::Trials,
    ];

    /// The number of the condition, 1 to 14.
    #[must_use]
    pub const fn number(self) -> u32 {
        self as u32
    }
}

impl fmt::Display for Refusal {
    fn fmt(&self, f: &mut fmt::Formatter<'_>) -> fmt::Result {
        let what = match self {
            Refusal::Generator => "the generator is even, or its degree is outside 3 to 16",
            Refusal::Length => "the length is not above the degree, or above 4096 bits",
            Refusal::Limit => "the error limit is outside 1 to 4",
            Refusal::Syndrome => "the syndrome does not fit the degree",
            Refusal::TableLength => "a table has the wrong number of entries",
            Refusal::TableEntry => "a table entry is wrong",
            Refusal::Mark => "the mark's pattern is unfit",
            Refusal::Output => "the output has an unfit length",
            Refusal::Range => "the range ends before its start or reaches into the CRC",
            Refusal::Field => "the field is not whole in the range, or not an even number of bytes from its start",
            Refusal::Values => "the initial or the final value does not fit the degree",
            Refusal::BlockShape => "the rows or the columns are outside 1 to 64",
            Refusal::BlockLength => "the input or the output has not as many bytes as rows times columns",
            Refusal::Trials => "the number of trials is outside 1 to 65535",
        };
        write!(f, "refused {}: {}", self.number(), what)
    }
}

impl Error for Refusal {}

/// What a C function's answer says: 0 is accepted.
#[inline]
pub(crate) fn judged(number: u32) -> Result<(), Refusal> {
    match number {
        0 => Ok(()),
        1..=14 => Err(Refusal::ALL[number as usize - 1]),
        _ => unreachable!("the library answered {number}, which names no condition"),
    }
}
