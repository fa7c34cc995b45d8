//! The channel to try settings on.

use crate::refusal::judged;
use crate::{ffi, Crc, Refusal, TableSlices};
use std::ops::Range;

/// The most bits that flip in a trial. A simulation has a row for each number of flips from 0 to this.
pub const MOST_FLIPS: usize = 8;

const ROWS: usize = MOST_FLIPS + 1;
const OUTCOMES: usize = 5;

/// How the trials with one number of flipped bits ended.
#[derive(Clone, Copy, Debug, Default, PartialEq, Eq, Hash)]
pub struct Counts {
    /// The received packet passes both checks as it is. With flips that is an error that neither check noticed.
    pub intact: u32,
    /// It was repaired, to the packet that was made.
    pub repaired_to_made: u32,
    /// It was repaired, to another packet: a false repair.
    pub repaired_otherwise: u32,
    /// More than one pattern passes.
    pub several: u32,
    /// No pattern passes.
    pub none: u32,
}

impl Counts {
    /// The five counts together, which of an accepted simulation is the number of trials.
    ///
    /// ```
    /// use rangqoda::Counts;
    ///
    /// assert_eq!(Counts { intact: 1, several: 20, none: 300, ..Counts::default() }.total(), 321);
    /// ```
    #[must_use]
    pub fn total(&self) -> u64 {
        let counts = [self.intact, self.repaired_to_made, self.repaired_otherwise, self.several, self.none];
        counts.iter().map(|&count| u64::from(count)).sum()
    }
}

/// What a simulation counted, and where its stream goes on.
#[derive(Clone, Copy, Debug, PartialEq, Eq, Hash)]
#[must_use = "its counts are what the trials were run for"]
pub struct Simulation {
    /// Row f counts the trials with f flipped bits.
    pub rows: [Counts; ROWS],
    /// The state after the last draw: the seed for more trials.
    pub state: u32,
}

/// Tries a limit on packets made from a seed: for f from 0 to 8 in turn it runs as many trials as asked for, with f flipped bits in
/// each, and counts the verdicts of the repairs. Refused by 1, 2, 11, 3, 5, 6, 8, 9, 10, 14, in this order. An accepted range with
/// start = end has no field to stamp, and is refused by 10.
///
/// A trial makes a packet as [`make`](crate::make) does, flips f different bits of it, and repairs what is then received by the same
/// CRC, range and field. The state runs on from trial to trial and from row to row. Draw i of a trial, counted from 0, is the next
/// state, all 32 bits of it, modulo L - i. It picks the position at that place, counted from 0, among those not yet taken, ascending.
///
/// Each row adds up to `trials`, which is accepted from 1 to 65,535. Row 0 is all intact. Where f is at most the limit, nothing is
/// repaired otherwise, and no verdict is [`Verdict::None`](crate::Verdict::None).
///
/// What the packet held before does not matter; it ends as it was last received. `output` is as long as the packet, and ends as the
/// repairs left it: it holds the last packet that was repaired, and stays as it was where none was.
///
/// For more trials pass the state as the next seed, and add up the rows. One call with all the trials counts other packets: it ends a
/// row before it begins the next.
///
/// ```
/// use rangqoda::{catalogue::CRC_16_IBM_3740 as CRC, simulate, Tables};
///
/// // A footnote: "CRC-16/IBM-3740, 64 bytes, checksum over bytes 0 to 61 at byte 60, N = 2, 1,000 trials, seed 1".
/// let tables = Tables::new(CRC.generator)?;
/// let (mut packet, mut output) = ([0; 64], [0; 64]);
/// let tried = simulate(CRC, 1, 0..62, 60, 2, 1000, tables.as_slices(), &mut packet, &mut output)?;
/// assert!(tried.rows.iter().all(|row| row.total() == 1000));
/// assert_eq!(tried.rows[0].intact, 1000);
/// assert_eq!(tried.rows[1].repaired_to_made, 1000);
///
/// // Two flips are within the limit: what is repaired at all is repaired to the packet made.
/// let two = tried.rows[2];
/// assert_eq!(two.repaired_to_made + two.several, 1000);
/// // Four are not. Most are given up, and some repairs are false.
/// let four = tried.rows[4];
/// assert!(four.none > 900 && four.repaired_to_made == 0);
/// # Ok::<(), rangqoda::Refusal>(())
/// ```
#[allow(clippy::too_many_arguments)] // those of `make` and of `repair`, and the trials
pub fn simulate(
    crc: Crc,
    seed: u32,
    range: Range<usize>,
    field: usize,
    limit: usize,
    trials: u64,
    tables: TableSlices<'_>,
    packet: &mut [u8],
    output: &mut [u8],
) -> Result<Simulation, Refusal> {
    let mut counts = [0; OUTCOMES * ROWS];
    let mut state = 0;
    // SAFETY: a slice's pointer is good for its length, and the lent parts are borrowed apart from each other.
    judged(unsafe {
        ffi::rangqoda_simulate(
            crc.generator,
            crc.init,
            crc.xorout,
            seed,
            range.start,
            range.end,
            field,
            limit,
            trials,
            tables.step.as_ptr(),
            tables.step.len(),
            tables.first.as_ptr(),
            tables.first.len(),
            packet.as_mut_ptr(),
            packet.len(),
            output.as_mut_ptr(),
            output.len(),
            counts.as_mut_ptr(),
            counts.len(),
            &mut state,
        )
    })?;
    let mut rows = [Counts::default(); ROWS];
    for (row, five) in rows.iter_mut().zip(counts.chunks_exact(OUTCOMES)) {
        *row = Counts {
            intact: five[0],
            repaired_to_made: five[1],
            repaired_otherwise: five[2],
            several: five[3],
            none: five[4],
        };
    }
    Ok(Simulation { rows, state })
}
