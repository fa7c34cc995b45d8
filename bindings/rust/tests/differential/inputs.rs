//! Inputs of every kind, fit and unfit, for the tests of all calls.

use crate::common::{unfit_values, PageCall, Random, HUGE, UNFIT_GENERATORS};
use crate::reference::{self, Mark, Tables, MARK_BYTES, MOST_POSITIONS, RECORD_BYTES};
use rangqoda::Crc;
use std::rc::Rc;

/// The number of ways to choose `limit` of `length` positions.
pub fn ways(length: usize, limit: usize) -> u64 {
    (0..limit as u64).fold(1, |ways, i| ways * (length as u64 - i) / (i + 1))
}

/// A length from `least` on for which the reference tries no more than about `most` patterns.
pub fn some_length(random: &mut Random, least: usize, limit: usize, most: u64) -> usize {
    let mut longest = least.max(limit);
    while longest < 4096 && ways(longest + 1, limit) <= most {
        longest += 1;
    }
    match random.below(4) {
        0 => least,
        1 => longest.max(least),
        _ => random.within(least, longest.max(least)),
    }
}

/// A syndrome whose list is likely to have patterns.
pub fn some_syndrome(random: &mut Random, generator: u64, length: usize, limit: usize) -> u64 {
    let n = reference::degree(generator);
    match random.below(4) {
        0 => random.below(1 << n),
        1 => 0,
        _ => {
            let count = random.within(1, limit);
            random.positions(count, length).iter().fold(0, |s, &p| s ^ reference::power(usize::from(p), generator))
        }
    }
}

pub struct Settings {
    pub generator: u64,
    pub length: usize,
    pub limit: usize,
    pub syndrome: u64,
    pub tables: Rc<Tables>,
}

impl Settings {
    pub fn call(&self) -> PageCall<'_> {
        PageCall {
            generator: self.generator,
            length: self.length,
            limit: self.limit,
            syndrome: self.syndrome,
            step: &self.tables.step,
            first: &self.tables.first,
        }
    }
}

pub fn some_settings(random: &mut Random, most: u64) -> Settings {
    let generator = random.known_generator();
    let limit = random.within(1, MOST_POSITIONS);
    let length = some_length(random, reference::degree(generator) + 1, limit, most);
    let syndrome = some_syndrome(random, generator, length, limit);
    Settings { generator, length, limit, syndrome, tables: reference::tables_of(generator) }
}

/// A table slice that has not as many entries as it should.
pub fn unfit_length(random: &mut Random, table: &[u16]) -> Vec<u16> {
    let entries = table.len();
    let len = random.pick(&[0, 1, entries / 2, entries - 1, entries + 1, 2 * entries]);
    let mut cut = table.to_vec();
    cut.resize(len, 0);
    cut
}

/// The tables with something wrong in them, of the right length.
pub fn spoiled(random: &mut Random, generator: u64, right: &Tables) -> (Vec<u16>, Vec<u16>) {
    let (mut step, mut first) = (right.step.clone(), right.first.clone());
    let entries = step.len();
    let any = random.within(0, entries - 1);
    let place = random.pick(&[0, 1, entries / 2, entries - 1, any]);
    match random.below(8) {
        0 => step[place] ^= 1 << random.below(16),
        1 => first[place] ^= 1 << random.below(16),
        2 => {
            // a later power that leaves the same, or a power where there is none
            let later = u64::from(first[place]) + right.period;
            first[place] = if later < 65535 { later as u16 } else { 0 };
        }
        3 => first[0] = 0,
        4 => step.swap(place, (place + 1) % entries),
        5 => {
            // the tables of another generator of the same degree
            let other = if generator & 2 == 0 { generator | 2 } else { generator & !2 };
            let other = reference::tables_of(other);
            step.clone_from(&other.step);
            first.clone_from(&other.first);
        }
        6 => step.fill(0),
        _ => first.fill(65535),
    }
    if step == right.step && first == right.first {
        step[place] ^= 1;
    }
    (step, first)
}

/// A mark's bytes of every kind, fit and unfit.
pub fn some_mark(random: &mut Random, list: &[Vec<u16>], length: usize, limit: usize) -> Vec<u8> {
    let mut bytes = match random.below(10) {
        0 | 1 => reference::mark_bytes(&Mark::Start),
        2 => reference::mark_bytes(&Mark::Ended),
        3 | 4 if !list.is_empty() => reference::mark_bytes(&Mark::After(random.pick(list))),
        9 => return unfit_mark(random, length, limit),
        _ => {
            let count = random.within(0, limit);
            reference::mark_bytes(&Mark::After(random.positions(count, length)))
        }
    };
    // bytes behind the mark's own are not read
    if random.once_in(2) {
        let count = usize::from(bytes[0]);
        let own = if count > MOST_POSITIONS { 1 } else { 1 + 2 * count };
        for byte in &mut bytes[own..] {
            *byte = random.next() as u8;
        }
    }
    bytes
}

pub fn unfit_mark(random: &mut Random, length: usize, limit: usize) -> Vec<u8> {
    let count = random.within(1, limit.clamp(1, MOST_POSITIONS));
    let mut positions = random.positions(count, length.clamp(1, 4096));
    match random.below(6) {
        0 if positions.len() > 1 => positions[1] = positions[0],
        1 if positions.len() > 1 => positions.reverse(),
        2 => *positions.last_mut().unwrap() = length.min(65535) as u16,
        3 if limit < MOST_POSITIONS => positions = (0..=limit as u16).collect(),
        4 => {
            let mut bytes = reference::mark_bytes(&Mark::Start);
            bytes.resize(random.pick(&[0, 1, MARK_BYTES - 1, MARK_BYTES + 1, 2 * MARK_BYTES]), 0);
            return bytes;
        }
        _ => {
            let mut bytes = reference::mark_bytes(&Mark::After(positions));
            bytes[0] = random.within(MOST_POSITIONS + 1, 0xFD) as u8;
            return bytes;
        }
    }
    reference::mark_bytes(&Mark::After(positions))
}

pub fn some_output(random: &mut Random) -> Vec<u8> {
    let len = match random.below(6) {
        0 => random.within(0, RECORD_BYTES - 1),
        1 => RECORD_BYTES,
        2 => random.within(RECORD_BYTES, 3 * RECORD_BYTES),
        3 | 4 => random.within(RECORD_BYTES, 300),
        _ => random.within(300, 5000),
    };
    random.bytes(len)
}

/// Packet lengths in bytes: short ones, those around the limits, and any.
pub fn some_bytes(random: &mut Random) -> usize {
    match random.below(4) {
        0 => random.within(0, 4),
        1 => random.pick(&[511, 512, 513, 514, 600, 8192]),
        2 => random.within(0, 64),
        _ => random.within(0, 520),
    }
}

pub fn some_generator(random: &mut Random) -> u64 {
    match random.below(8) {
        0 => random.pick(&UNFIT_GENERATORS),
        1 => random.next(),
        2 => random.any_generator() & !1,
        3 => rangqoda::CCITT,
        _ => random.any_generator(),
    }
}

/// The same with initial and final values, which now and then are unfit.
pub fn some_crc(random: &mut Random) -> Crc {
    let generator = some_generator(random);
    let crc = random.values(generator);
    if generator != 0 && random.once_in(8) {
        return unfit_values(random, crc);
    }
    crc
}

/// A range and a field, often fit for so many bytes.
pub fn any_place(random: &mut Random, len: usize) -> (usize, usize, usize) {
    let mut place = |near: usize| match random.below(12) {
        0 => random.pick(&HUGE),
        1 => random.within(0, len + 4),
        _ => random.within(0, near),
    };
    (place(len / 2), place(len), place(len))
}

/// A range and a field that fit, for a CRC of n bits.
pub fn fit_place(random: &mut Random, len: usize, n: usize) -> (usize, usize, usize) {
    let end = random.within(2, (8 * len - n) / 8);
    let start = random.within(0, end - 2);
    (start, end, start + 2 * random.within(0, (end - start - 2) / 2))
}

/// A place that no field of the range has.
pub fn unfit_field(random: &mut Random, start: usize, end: usize) -> usize {
    let huge = random.pick(&HUGE);
    random.pick(&[start + 1, end - 1, end, end + 1, start.wrapping_sub(2), huge])
}

/// A range that ends behind the last accepted end, or before its start.
pub fn unfit_range(random: &mut Random, start: usize, end: usize, last: usize) -> (usize, usize) {
    let (past, huge) = (last + 1, random.pick(&HUGE));
    random.pick(&[
        (start, past),
        (past, past),
        (start, past + 1),
        (start, huge),
        (huge, huge),
        (end + 1, start),
        (huge, end),
    ])
}

pub fn some_seed(random: &mut Random) -> u32 {
    let any = random.next() as u32;
    random.pick(&[0, 1, 1 << 31, u32::MAX - 1, u32::MAX, any, any, any])
}

pub fn unfit_length_in_bits(random: &mut Random, n: usize) -> usize {
    match random.below(4) {
        0 => n,
        1 => random.within(0, n),
        2 => random.pick(&HUGE),
        _ => random.pick(&[4097, 4104, 8192, 65536 + 64, (1 << 32) + 64]),
    }
}

pub fn unfit_limit(random: &mut Random) -> usize {
    let other = random.pick(&HUGE);
    random.pick(&[0, MOST_POSITIONS + 1, MOST_POSITIONS + 2, 256, 257, 258, 65537, (1 << 32) + 1, (1 << 32) + 2, other])
}

/// A packet with its range and field and what was sent, damaged in some bits.
pub struct Received {
    pub crc: Crc,
    pub start: usize,
    pub end: usize,
    pub field: usize,
    pub limit: usize,
    pub packet: Vec<u8>,
    pub sent: Vec<u8>,
    pub flips: usize,
}

pub fn some_received(random: &mut Random, most: u64) -> Received {
    let generator = random.known_generator();
    let crc = random.values(generator);
    let n = reference::degree(generator);
    let limit = random.within(1, MOST_POSITIONS);
    let least = (n + 23) / 8; // a field and the CRC
    let bits = some_length(random, 8 * least, limit, most);
    let len = bits / 8;
    let (mut start, end, mut field) = fit_place(random, len, n);
    let mut sent = random.packet(len);
    // one in four carries no checksum, and of one in four none was made
    if random.once_in(4) {
        (start, field) = (end, random.pick(&HUGE));
    } else if random.once_in(3) {
        sent[field..field + 2].fill(0);
    } else {
        reference::stamp(generator, start, end, field, &mut sent).unwrap();
    }
    reference::seal(crc, &mut sent).unwrap();
    let flips = random.within(0, limit + 1);
    let pattern = random.positions(flips, 8 * len);
    let packet = reference::flipped(&sent, &pattern);
    Received { crc, start, end, field, limit, packet, sent, flips: pattern.len() }
}

/// What a set of conditions asks for: whether each number is in it, and which of them comes first in a call's order.
pub struct Broken(u32);

impl Broken {
    pub fn has(&self, number: u32) -> bool {
        self.0 >> number & 1 == 1
    }

    pub fn first(&self, order: &[u32]) -> u32 {
        order.iter().copied().find(|&number| self.has(number)).unwrap_or(0)
    }

    /// Every subset of the numbers.
    pub fn subsets(numbers: &[u32]) -> Vec<Broken> {
        (0..1u32 << numbers.len())
            .map(|set| {
                let has = |(i, number): (usize, &u32)| (set >> i & 1) << number;
                Broken(numbers.iter().enumerate().map(has).sum())
            })
            .collect()
    }
}
