//! Tables, and the lists that are read with them.

use crate::refusal::judged;
use crate::{ffi, repair, simulate, Crc, Mark, Pattern, Refusal, Simulation, Verdict};
use std::ops::Range;

/// The entry of a first-position table where no power of x leaves the remainder.
pub const NO_POSITION: u16 = 65535;

/// Fills the two lent tables of a generator, each of exactly 2^n entries, and returns the period: the smallest positive c
/// such that x^c leaves 1. Refused by 1, 5.
///
/// Entry s of `step` is that t below 2^n whose product with x leaves s. Entry s of `first` is the smallest p such that x^p
/// leaves s, or [`NO_POSITION`] where no power does.
///
/// ```
/// use rangqoda::{build_tables, FIVE, NO_POSITION};
///
/// let (mut step, mut first) = ([0; 32], [0; 32]);
/// assert_eq!(build_tables(FIVE, &mut step, &mut first), Ok(15));
/// assert_eq!((step[1], first[26], first[3]), (26, 14, NO_POSITION));
/// ```
pub fn build_tables(generator: u64, step: &mut [u16], first: &mut [u16]) -> Result<u64, Refusal> {
    let mut period = 0;
    // SAFETY: a slice's pointer is good for its length, and the lent parts are borrowed apart from each other.
    judged(unsafe {
        ffi::rangqoda_tables(generator, step.as_mut_ptr(), step.len(), first.as_mut_ptr(), first.len(), &mut period)
    })?;
    Ok(period)
}

/// The two tables of a generator, lent to a call. The call verifies every entry.
#[derive(Clone, Copy, Debug)]
pub struct TableSlices<'a> {
    /// Entry s is that t below 2^n whose product with x leaves s.
    pub step: &'a [u16],
    /// Entry s is the smallest p such that x^p leaves s, or [`NO_POSITION`] where no power does.
    pub first: &'a [u16],
}

/// What a page holds and where the list goes on.
#[derive(Clone, Copy, Debug, PartialEq, Eq, Hash)]
#[must_use = "only its mark says whether the list has ended"]
pub struct Page {
    /// How many bytes of the output the records take.
    pub used: usize,
    /// How many records there are.
    pub written: u64,
    /// The mark for the next page: ended if no listed pattern is left to follow.
    pub next: Mark,
}

impl Page {
    /// The patterns of the page, from the output that it was written to.
    ///
    /// # Panics
    ///
    /// Where `output` has fewer bytes than the page used. The iterator panics where these bytes are not as many records as the page
    /// wrote. Nothing else is noticed: records that were written there since give their own patterns.
    pub fn patterns<'a>(&self, output: &'a [u8]) -> impl Iterator<Item = Pattern> + 'a {
        let (mut rest, mut left) = (&output[..self.used], self.written);
        std::iter::from_fn(move || {
            if left == 0 {
                assert!(rest.is_empty(), "the output holds more than the page's records");
                return None;
            }
            let (pattern, used) = Pattern::read(rest).expect("the output holds the page's records");
            rest = &rest[used..];
            left -= 1;
            Some(pattern)
        })
    }
}

/// Writes the records of the listed patterns that follow the mark, up to the first that does not fit. Bytes beyond those
/// used stay. `length` is in bits. Refused by 1 to 8.
///
/// A record is one byte, the count of positions, then the positions ascending, in two bytes each, high byte first.
///
/// ```
/// use rangqoda::{page, Mark, Tables, FIVE};
///
/// let tables = Tables::new(FIVE)?;
/// let mut output = [0; 16];
/// let found = page(FIVE, 8, 2, 3, tables.as_slices(), Mark::Start, &mut output)?;
/// assert_eq!((found.used, found.written, found.next), (10, 2, Mark::Ended));
/// assert_eq!(output[..10], [2, 0, 0, 0, 1, 2, 0, 3, 0, 7]);
/// # Ok::<(), rangqoda::Refusal>(())
/// ```
pub fn page(
    generator: u64,
    length: usize,
    limit: usize,
    syndrome: u64,
    tables: TableSlices<'_>,
    mark: Mark,
    output: &mut [u8],
) -> Result<Page, Refusal> {
    let mut bytes = mark.to_bytes();
    let mut used = 0;
    let mut written = 0;
    // SAFETY: as in `build_tables`.
    judged(unsafe {
        ffi::rangqoda_page(
            generator,
            length,
            limit,
            syndrome,
            tables.step.as_ptr(),
            tables.step.len(),
            tables.first.as_ptr(),
            tables.first.len(),
            bytes.as_mut_ptr(),
            bytes.len(),
            output.as_mut_ptr(),
            output.len(),
            &mut used,
            &mut written,
        )
    })?;
    let next = Mark::from_bytes(&bytes).expect("the library writes a mark");
    Ok(Page { used, written, next })
}

/// The two tables of a generator and its period, built by the library and kept for many calls.
#[derive(Clone, Debug, PartialEq, Eq)]
pub struct Tables {
    generator: u64,
    step: Vec<u16>,
    first: Vec<u16>,
    period: u64,
}

impl Tables {
    /// Builds the tables. Refused by 1.
    pub fn new(generator: u64) -> Result<Tables, Refusal> {
        // An unfit generator gets no entries: the library judges it before it looks at the tables.
        let entries = match generator {
            1..=0x1FFFF => 1 << (63 - generator.leading_zeros()),
            _ => 0,
        };
        let (mut step, mut first) = (vec![0; entries], vec![0; entries]);
        let period = build_tables(generator, &mut step, &mut first)?;
        Ok(Tables { generator, step, first, period })
    }

    /// The generator that the tables belong to.
    #[must_use]
    pub fn generator(&self) -> u64 {
        self.generator
    }

    /// The smallest positive c such that x^c leaves 1.
    #[must_use]
    pub fn period(&self) -> u64 {
        self.period
    }

    /// Both tables, to be lent.
    #[must_use]
    pub fn as_slices(&self) -> TableSlices<'_> {
        TableSlices { step: &self.step, first: &self.first }
    }

    /// [`page`] with these tables and their generator.
    pub fn page(
        &self,
        length: usize,
        limit: usize,
        syndrome: u64,
        mark: Mark,
        output: &mut [u8],
    ) -> Result<Page, Refusal> {
        page(self.generator, length, limit, syndrome, self.as_slices(), mark, output)
    }

    /// [`repair`] with these tables. They have to be those of the CRC's generator: others are refused by 5 or 6.
    pub fn repair(
        &self,
        crc: Crc,
        range: Range<usize>,
        field: usize,
        limit: usize,
        packet: &[u8],
        output: &mut [u8],
    ) -> Result<Verdict, Refusal> {
        repair(crc, range, field, limit, self.as_slices(), packet, output)
    }

    /// [`simulate`] with these tables. They have to be those of the CRC's generator: others are refused by 5 or 6.
    #[allow(clippy::too_many_arguments)] // those of `simulate`
    pub fn simulate(
        &self,
        crc: Crc,
        seed: u32,
        range: Range<usize>,
        field: usize,
        limit: usize,
        trials: u64,
        packet: &mut [u8],
        output: &mut [u8],
    ) -> Result<Simulation, Refusal> {
        simulate(crc, seed, range, field, limit, trials, self.as_slices(), packet, output)
    }

    /// Every pattern of a list, in its order: of as many positions the narrower come first. Refused by 2, 3, 4.
    ///
    /// ```
    /// use rangqoda::{Tables, FIVE};
    ///
    /// let tables = Tables::new(FIVE)?;
    /// let mut found = Vec::new();
    /// for pattern in tables.patterns(9, 2, 30)? {
    ///     found.push(pattern.as_slice().to_vec());
    /// }
    /// assert_eq!(found, [[5, 7], [3, 8], [0, 6]]);
    /// # Ok::<(), rangqoda::Refusal>(())
    /// ```
    pub fn patterns(&self, length: usize, limit: usize, syndrome: u64) -> Result<Patterns<'_>, Refusal> {
        let mut patterns = Patterns {
            tables: self,
            length,
            limit,
            syndrome,
            output: vec![0; SHORT_PAGE],
            used: 0,
            read: 0,
            next: Mark::Start,
        };
        patterns.turn()?;
        Ok(patterns)
    }
}

/// The bytes of an iterator's first page and of its later ones: each page verifies the tables anew, so a long list is read
/// in long pages, and a short one takes little memory.
const SHORT_PAGE: usize = 1 << 12;
const LONG_PAGE: usize = 1 << 20;

/// The patterns of a list, page after page. See [`Tables::patterns`].
#[derive(Clone, Debug)]
#[must_use = "patterns are read as they are asked for"]
pub struct Patterns<'a> {
    tables: &'a Tables,
    length: usize,
    limit: usize,
    syndrome: u64,
    output: Vec<u8>,
    used: usize,
    read: usize,
    next: Mark,
}

impl Patterns<'_> {
    /// Takes the next page into the output.
    fn turn(&mut self) -> Result<(), Refusal> {
        let page = self.tables.page(self.length, self.limit, self.syndrome, self.next, &mut self.output)?;
        self.used = page.used;
        self.read = 0;
        self.next = page.next;
        Ok(())
    }
}

impl Iterator for Patterns<'_> {
    type Item = Pattern;

    fn next(&mut self) -> Option<Pattern> {
        if self.read == self.used {
            if self.next == Mark::Ended {
                return None;
            }
            self.output.resize(LONG_PAGE, 0);
            self.turn().expect("the first page was accepted, and its mark is the library's");
        }
        let (pattern, used) = Pattern::read(&self.output[self.read..self.used]).expect("the library writes records");
        self.read += used;
        Some(pattern)
    }
}

impl std::iter::FusedIterator for Patterns<'_> {}
