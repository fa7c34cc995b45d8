//! Patterns, the marks between them and the verdicts that name them, each with its bytes at the C boundary.

use std::cmp::Ordering;
use std::fmt;

/// The most positions of a pattern.
pub const MOST_POSITIONS: usize = 4;

/// The length of the longest record, and so of the shortest output that a page accepts.
pub const RECORD_BYTES: usize = 1 + 2 * MOST_POSITIONS;

/// The length of a mark as the C functions take it.
pub const MARK_BYTES: usize = RECORD_BYTES;

/// The length of a verdict as the C functions write it.
pub const VERDICT_BYTES: usize = 9 + RECORD_BYTES;

const MARK_START: u8 = 0xFE;
const MARK_ENDED: u8 = 0xFF;

/// An error pattern: up to four bit positions.
///
/// Patterns from a list ascend strictly. One that a caller makes may hold any positions; a [`Mark`] with an unfit one is
/// refused by the call that gets it.
///
/// Patterns compare as the list orders them. Fewer positions come first. Equal counts go by their [span](Pattern::span), the
/// smaller first. Equal spans go by their positions, from the first on, the lower first.
///
/// ```
/// use rangqoda::Pattern;
///
/// let pattern = Pattern::new(&[3, 8]).unwrap();
/// assert_eq!(pattern.as_slice(), [3, 8]);
/// assert!(Pattern::new(&[40]).unwrap() < pattern);
/// assert!(Pattern::new(&[1, 2, 3, 4, 5]).is_none());
///
/// // A narrower pair precedes a lower one. Pairs of equal span go by their positions.
/// assert!(Pattern::new(&[5, 7]).unwrap() < pattern);
/// assert!(pattern < Pattern::new(&[4, 9]).unwrap());
/// ```
#[derive(Clone, Copy, Default, PartialEq, Eq, Hash)]
pub struct Pattern {
    count: u8,
    /// Zero from `count` on, so that patterns of the same positions are equal.
    positions: [u16; MOST_POSITIONS],
}

impl Pattern {
    /// The pattern without positions.
    pub const EMPTY: Pattern = Pattern { count: 0, positions: [0; MOST_POSITIONS] };

    /// The pattern of these positions, in this order; `None` for more than four.
    #[must_use]
    pub fn new(positions: &[u16]) -> Option<Pattern> {
        let mut pattern = Pattern { count: u8::try_from(positions.len()).ok()?, ..Pattern::EMPTY };
        pattern.positions.get_mut(..positions.len())?.copy_from_slice(positions);
        Some(pattern)
    }

    /// The positions.
    #[must_use]
    pub fn as_slice(&self) -> &[u16] {
        &self.positions[..usize::from(self.count)]
    }

    /// How many positions there are.
    #[must_use]
    pub fn len(&self) -> usize {
        usize::from(self.count)
    }

    /// Whether there are none.
    #[must_use]
    pub fn is_empty(&self) -> bool {
        self.count == 0
    }

    /// The span: the largest position minus the smallest, and 0 for one position or none.
    ///
    /// Positions that do not ascend have the last minus the first for it, and 0 where the last is lower.
    ///
    /// ```
    /// use rangqoda::Pattern;
    ///
    /// assert_eq!(Pattern::new(&[3, 4, 8]).unwrap().span(), 5);
    /// assert_eq!(Pattern::new(&[40]).unwrap().span(), 0);
    /// ```
    #[must_use]
    pub fn span(&self) -> u16 {
        match self.as_slice() {
            [first, .., last] => last.saturating_sub(*first),
            _ => 0,
        }
    }

    /// Writes the record: the count, then each position in two bytes, high byte first.
    fn write(&self, record: &mut [u8; RECORD_BYTES]) {
        record.fill(0);
        record[0] = self.count;
        for (place, position) in record[1..].chunks_exact_mut(2).zip(self.as_slice()) {
            place.copy_from_slice(&position.to_be_bytes());
        }
    }

    /// The pattern whose record the bytes begin with, and the record's length; `None` where they begin with none.
    pub(crate) fn read(bytes: &[u8]) -> Option<(Pattern, usize)> {
        let (&count, rest) = bytes.split_first()?;
        let mut pattern = Pattern { count, ..Pattern::EMPTY };
        let positions = pattern.positions.get_mut(..usize::from(count))?;
        let places = rest.get(..2 * positions.len())?;
        for (position, place) in positions.iter_mut().zip(places.chunks_exact(2)) {
            *position = u16::from_be_bytes([place[0], place[1]]);
        }
        Some((pattern, 1 + places.len()))
    }
}

impl Ord for Pattern {
    fn cmp(&self, other: &Pattern) -> Ordering {
        let key = |pattern: &Pattern| (pattern.count, pattern.span(), pattern.positions);
        key(self).cmp(&key(other))
    }
}

impl PartialOrd for Pattern {
    fn partial_cmp(&self, other: &Pattern) -> Option<Ordering> {
        Some(self.cmp(other))
    }
}

impl AsRef<[u16]> for Pattern {
    fn as_ref(&self) -> &[u16] {
        self.as_slice()
    }
}

impl fmt::Debug for Pattern {
    fn fmt(&self, f: &mut fmt::Formatter<'_>) -> fmt::Result {
        f.debug_set().entries(self.as_slice()).finish()
    }
}

/// Where a list is to be continued.
#[derive(Clone, Copy, Debug, PartialEq, Eq, Hash)]
pub enum Mark {
    /// Before the first pattern.
    Start,
    /// Behind the last pattern.
    Ended,
    /// After this pattern, which need not be a listed one: what follows is what comes after it in the list's order.
    After(Pattern),
}

impl Mark {
    /// The mark as the C functions take it.
    #[must_use]
    pub fn to_bytes(self) -> [u8; MARK_BYTES] {
        let mut bytes = [0; MARK_BYTES];
        match self {
            Mark::Start => bytes[0] = MARK_START,
            Mark::Ended => bytes[0] = MARK_ENDED,
            Mark::After(pattern) => pattern.write(&mut bytes),
        }
        bytes
    }

    /// The mark that the bytes stand for; `None` where the first of them is none that a mark has. Bytes behind the mark are not read.
    #[must_use]
    pub fn from_bytes(bytes: &[u8; MARK_BYTES]) -> Option<Mark> {
        match bytes[0] {
            MARK_START => Some(Mark::Start),
            MARK_ENDED => Some(Mark::Ended),
            _ => Pattern::read(bytes).map(|(pattern, _)| Mark::After(pattern)),
        }
    }
}

/// What a repair found.
///
/// The compiler warns of one that is not read:
///
/// ```compile_fail
/// #![deny(unused_must_use)]
/// # use rangqoda::{Crc, Tables, FIVE};
/// let tables = Tables::new(FIVE)?;
/// tables.repair(Crc::plain(FIVE), 0..2, 0, 1, &[0x7F, 0xFF, 0x05], &mut [0; 3])?;
/// # Ok::<(), rangqoda::Refusal>(())
/// ```
#[derive(Clone, Copy, Debug, PartialEq, Eq, Hash)]
#[must_use = "only the verdict says whether the packet, the output or nothing may be published"]
pub enum Verdict {
    /// The packet passes both checks as it is.
    Intact,
    /// Just one listed pattern leads to a packet that passes: this one. The output holds the flipped packet. If more bits
    /// flipped than the limit, it may be a wrong one: see [what a repair does not tell](crate#what-a-repair-does-not-tell).
    Repaired(Pattern),
    /// More than one does.
    Several {
        /// How many.
        count: u64,
        /// The one of them that stands first in the list. It is no repair: any of them may be what happened, or none.
        pattern: Pattern,
    },
    /// None does.
    None,
}

impl Verdict {
    /// The verdict as the C functions write it.
    #[must_use]
    pub fn to_bytes(self) -> [u8; VERDICT_BYTES] {
        let (kind, count, pattern) = match self {
            Verdict::Intact => (0, 0, Pattern::EMPTY),
            Verdict::Repaired(pattern) => (1, 1, pattern),
            Verdict::Several { count, pattern } => (2, count, pattern),
            Verdict::None => (3, 0, Pattern::EMPTY),
        };
        let mut record = [0; RECORD_BYTES];
        pattern.write(&mut record);
        let mut bytes = [0; VERDICT_BYTES];
        bytes[0] = kind;
        bytes[1..9].copy_from_slice(&count.to_be_bytes());
        bytes[9..].copy_from_slice(&record);
        bytes
    }

    /// The verdict that the bytes stand for; `None` where the kind or the count of positions is none that a verdict has. What the kind
    /// has no use for is not read beyond that.
    #[must_use]
    pub fn from_bytes(bytes: &[u8; VERDICT_BYTES]) -> Option<Verdict> {
        let count = u64::from_be_bytes(bytes[1..9].try_into().expect("eight bytes"));
        let (pattern, _) = Pattern::read(&bytes[9..])?;
        match bytes[0] {
            0 => Some(Verdict::Intact),
            1 => Some(Verdict::Repaired(pattern)),
            2 => Some(Verdict::Several { count, pattern }),
            3 => Some(Verdict::None),
            _ => None,
        }
    }
}
