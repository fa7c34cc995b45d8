//! What a reader would use otherwise: the lookup-table method of V. Boussard, S. Coulombe, F.-X. Coudoux and P. Corlay,
//! "CRC-Based Correction of Multiple Errors Using an Optimized Lookup Table" (IEEE Access 10, 2022), and a table-driven
//! CRC.
//!
//! The method is taken at its best, but for parity, which the paper does not use (`counts_by_parity`). A row of its
//! table is two 16-bit numbers. Forced positions move on by one step from the set before, where the paper's algorithm 3
//! walks from bit 0 again for each set. The bound of algorithm 2 is mended (as printed it lets the last position be the
//! packet's length), and counts are taken from the smallest up. Patterns of one count come by their positions, the lowest
//! first: the method spends no time on the library's order, which has the narrow ones first. Its tables are trusted, not
//! verified.

use rangqoda::MOST_POSITIONS;
use std::ops::Range;

const NONE: u16 = 65535;

#[derive(Clone, Copy)]
struct Row {
    /// The position of the single error with this syndrome, or `NONE`.
    single: u16,
    /// The syndrome once the forced error has moved up by a bit.
    next: u16,
}

pub struct Lookup {
    generator: u32,
    cycle: usize,
    rows: Vec<Row>,
}

impl Lookup {
    pub fn new(generator: u32) -> Lookup {
        let degree = 31 - generator.leading_zeros();
        let mut rows: Vec<Row> = (0..1 << degree)
            .map(|s: u32| {
                let cancelled = (s << 1 ^ 1 ^ generator) >> 1;
                Row { single: NONE, next: forced_to_1(cancelled, generator) as u16 }
            })
            .collect();
        let (mut power, mut cycle) = (1u32, 0);
        while cycle == 0 || power != 1 {
            rows[power as usize].single = cycle as u16;
            cycle += 1;
            power <<= 1;
            if power >> degree == 1 {
                power ^= generator;
            }
        }
        Lookup { generator, cycle, rows }
    }

    /// The second column of the table.
    pub fn next_column(&self) -> Vec<u16> {
        self.rows.iter().map(|row| row.next).collect()
    }

    /// The counts up to `limit` that parity does not rule out. The paper tries them all; an earlier paper by the same authors,
    /// "Enhanced CRC-Based Correction of Multiple Errors with Candidate Validation" (Signal Processing: Image Communication 99, 2021),
    /// does not.
    pub fn counts_by_parity(&self, syndrome: u32, limit: usize) -> impl Iterator<Item = usize> {
        let odd = self.generator.count_ones() % 2 == 1;
        (0..=limit).filter(move |&count| odd || count % 2 == syndrome.count_ones() as usize % 2)
    }

    /// Every pattern of so many positions below `length`, for each of the counts, with this syndrome.
    pub fn patterns(
        &self,
        syndrome: u32,
        length: usize,
        counts: impl Iterator<Item = usize>,
        found: &mut impl FnMut(&[u16]),
    ) {
        for count in counts {
            let mut positions = [0; MOST_POSITIONS];
            match count {
                0 if syndrome == 0 => found(&[]),
                0 => (),
                1 => self.one(syndrome, length, found),
                _ => self.more(syndrome, 0, length, &mut positions[..count], 0, found),
            }
        }
    }

    /// Algorithm 1.
    fn one(&self, syndrome: u32, length: usize, found: &mut impl FnMut(&[u16])) {
        let single = self.rows[syndrome as usize].single;
        if single != NONE {
            let mut position = usize::from(single);
            while position < length {
                found(&[position as u16]);
                position += self.cycle;
            }
        }
    }

    /// Algorithm 3: forces each position from `from` on in turn, until two are left for algorithm 2. `window` is the
    /// syndrome seen from `from`, with every position below it settled.
    fn more(
        &self,
        mut window: u32,
        from: usize,
        length: usize,
        positions: &mut [u16],
        placed: usize,
        found: &mut impl FnMut(&[u16]),
    ) {
        if positions.len() - placed == 2 {
            return self.two(window, from, length, positions, found);
        }
        for forced in from..length {
            positions[placed] = forced as u16;
            self.more(forced_to_1(window, self.generator), forced + 1, length, positions, placed + 1, found);
            window = forced_to_0(window, self.generator);
        }
    }

    /// Algorithm 2.
    fn two(&self, window: u32, from: usize, length: usize, positions: &mut [u16], found: &mut impl FnMut(&[u16])) {
        let last = positions.len() - 1;
        let mut syndrome = forced_to_1(window, self.generator);
        for forced in from..length {
            let row = self.rows[syndrome as usize];
            if row.single != NONE {
                let mut position = usize::from(row.single) + 1 + forced;
                while position < length {
                    positions[last - 1] = forced as u16;
                    positions[last] = position as u16;
                    found(positions);
                    position += self.cycle;
                }
            }
            syndrome = u32::from(row.next);
        }
    }
}

/// The window a bit further up, once its lowest bit is 1.
fn forced_to_1(window: u32, generator: u32) -> u32 {
    if window & 1 == 0 {
        (window ^ generator) >> 1
    } else {
        window >> 1
    }
}

/// The window a bit further up, once its lowest bit is 0.
fn forced_to_0(window: u32, generator: u32) -> u32 {
    if window & 1 == 1 {
        (window ^ generator) >> 1
    } else {
        window >> 1
    }
}

/// The remainder of a packet for a generator of degree 16, a byte at a time.
pub struct TableCrc([u16; 256]);

impl TableCrc {
    pub fn new(generator: u32) -> TableCrc {
        let mut table = [0; 256];
        for (byte, entry) in table.iter_mut().enumerate() {
            let mut rest = (byte as u32) << 16;
            for i in (16..24).rev() {
                if rest >> i & 1 == 1 {
                    rest ^= generator << (i - 16);
                }
            }
            *entry = rest as u16;
        }
        TableCrc(table)
    }

    /// As it is usually written: the CRC of what stands before the last two bytes, and these added to it.
    pub fn usual(&self, packet: &[u8]) -> u16 {
        let (data, field) = packet.split_at(packet.len() - 2);
        let crc = data.iter().fold(0u16, |crc, &byte| crc << 8 ^ self.0[usize::from((crc >> 8) as u8 ^ byte)]);
        crc ^ u16::from_be_bytes([field[0], field[1]])
    }

    /// With the whole packet shifted through the register: a step waits for one operation less.
    pub fn remainder(&self, packet: &[u8]) -> u16 {
        packet.iter().fold(0, |rest, &byte| (rest << 8 | u16::from(byte)) ^ self.0[usize::from(rest >> 8)])
    }
}

/// How a candidate's checksum is found.
#[derive(Clone, Copy, PartialEq)]
pub enum Summing {
    /// The bits are flipped in a copy, and the range is summed again.
    Anew,
    /// The range's sum is corrected by what the flipped bits weigh, and the field by those that fall into it.
    Corrected,
    /// There is none: every candidate passes.
    Nothing,
}

/// What a repair finds: how many patterns pass (none for an intact packet), and the first of them in the method's order.
#[derive(Clone, Copy, Debug, PartialEq)]
pub struct Found {
    pub intact: bool,
    pub passing: u64,
    pub count: usize,
    pub positions: [u16; MOST_POSITIONS],
}

/// A reader built on the method.
pub struct Reader {
    pub lookup: Lookup,
    pub crc: TableCrc,
}

fn total(bytes: &[u8]) -> i64 {
    let words = bytes.chunks_exact(2);
    let odd = words.remainder().first().map_or(0, |&byte| i64::from(byte) << 8);
    words.map(|word| i64::from(u16::from_be_bytes([word[0], word[1]]))).sum::<i64>() + odd
}

/// Whether a total folds to FFFFh.
fn passes(total: i64) -> bool {
    total != 0 && total % 65535 == 0
}

fn flip(packet: &mut [u8], positions: &[u16]) {
    let last = packet.len() - 1;
    for &position in positions {
        packet[last - usize::from(position / 8)] ^= 1 << (position % 8);
    }
}

impl Reader {
    pub fn repair(
        &self,
        range: Range<usize>,
        field: usize,
        limit: usize,
        packet: &[u8],
        output: &mut [u8],
        summing: Summing,
    ) -> Found {
        let mut found = Found { intact: false, passing: 0, count: 0, positions: [0; MOST_POSITIONS] };
        found.intact = self.passing(range, field, limit, packet, summing, &mut |positions| {
            if found.passing == 0 {
                found.count = positions.len();
                found.positions[..positions.len()].copy_from_slice(positions);
            }
            found.passing += 1;
        });
        if found.passing == 1 {
            output.copy_from_slice(packet);
            flip(output, &found.positions[..found.count]);
        }
        found
    }

    /// Whether the packet is intact. If it is not, every pattern that passes is noted.
    pub fn passing(
        &self,
        range: Range<usize>,
        field: usize,
        limit: usize,
        packet: &[u8],
        summing: Summing,
        note: &mut impl FnMut(&[u16]),
    ) -> bool {
        let syndrome = self.crc.remainder(packet);
        let sent = total(&packet[range.clone()]);
        let held = [packet[field], packet[field + 1]];
        if syndrome == 0 && (summing == Summing::Nothing || held == [0, 0] || passes(sent)) {
            return true;
        }
        let last = packet.len() - 1;
        let mut copy = [0; 512];
        let copy = &mut copy[..packet.len()];
        copy.copy_from_slice(packet);
        match summing {
            Summing::Nothing => self.lookup.patterns(syndrome.into(), 8 * packet.len(), 0..=limit, note),
            Summing::Anew => self.lookup.patterns(syndrome.into(), 8 * packet.len(), 0..=limit, &mut |positions| {
                flip(copy, positions);
                if copy[field..field + 2] == [0, 0] || passes(total(&copy[range.clone()])) {
                    note(positions);
                }
                flip(copy, positions);
            }),
            Summing::Corrected => {
                let mut weights = [0i32; 4096];
                for place in range.clone() {
                    for bit in 0..8 {
                        let weight = if (place - range.start) & 1 == 0 { 256 << bit } else { 1 << bit };
                        let set = packet[place] >> bit & 1 == 1;
                        weights[8 * (last - place) + bit] = if set { -weight } else { weight };
                    }
                }
                let lowest = 8 * (last - field - 1) as u16;
                self.lookup.patterns(syndrome.into(), 8 * packet.len(), 0..=limit, &mut |positions| {
                    let inside = positions.iter().map(|position| position.wrapping_sub(lowest)).filter(|&bit| bit < 16);
                    let field_after = inside.fold(u16::from_be_bytes(held), |left, bit| left ^ 1 << bit);
                    let change: i32 = positions.iter().map(|&position| weights[usize::from(position) % 4096]).sum();
                    if field_after == 0 || passes(sent + i64::from(change)) {
                        note(positions);
                    }
                })
            }
        }
        false
    }
}
