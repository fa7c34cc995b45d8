//! The rules of the library once more, written plainly and slowly: long division bit by bit, every combination of
//! positions tried, every candidate packet summed anew. The tests hold the library to it.
//!
//! A call gives `Err` with the number of the condition that refused it, and then has changed nothing.

#![allow(dead_code)] // no test uses all of it

use rangqoda::Crc;
use std::cell::RefCell;
use std::cmp::Ordering;
use std::rc::Rc;

/// The most positions of a pattern; the bytes of the longest record, which are the least output of a page; those of a mark and of
/// a verdict.
pub const MOST_POSITIONS: usize = 4;
pub const RECORD_BYTES: usize = 1 + 2 * MOST_POSITIONS;
pub const MARK_BYTES: usize = RECORD_BYTES;
pub const VERDICT_BYTES: usize = 1 + 8 + RECORD_BYTES;

/// The most bits that flip in a trial, and the counts of a simulation: five for each number of flips.
pub const MOST_FLIPS: usize = 8;
pub const COUNTS: usize = 5 * (MOST_FLIPS + 1);

pub type Answer<T> = Result<T, u32>;

/// A set of positions, ascending.
pub type Pattern = Vec<u16>;

#[derive(Clone, Debug, PartialEq, Eq)]
pub enum Mark {
    Start,
    Ended,
    After(Pattern),
}

/// The verdict. `Several` has how many patterns pass, and the one of them that stands first in the list.
#[derive(Clone, Debug, PartialEq, Eq)]
pub enum Verdict {
    Intact,
    Repaired(Pattern),
    Several(u64, Pattern),
    None,
}

// ---- polynomials

/// The place of the highest one.
pub fn degree(generator: u64) -> usize {
    (0..64).rev().find(|i| generator >> i & 1 == 1).unwrap_or(0)
}

/// The remainder of a polynomial, given by its coefficients, highest first: bring down a bit, and take the generator away
/// where it goes.
pub fn divide(coefficients: impl IntoIterator<Item = bool>, generator: u64) -> u64 {
    let n = degree(generator);
    let mut rest = 0;
    for bit in coefficients {
        rest = rest << 1 | u64::from(bit);
        if rest >> n & 1 == 1 {
            rest ^= generator;
        }
    }
    rest
}

/// What x^p leaves.
pub fn power(p: usize, generator: u64) -> u64 {
    divide((0..=p).rev().map(|i| i == p), generator)
}

/// What r times x leaves.
fn times_x(r: u64, generator: u64) -> u64 {
    let n = degree(generator);
    divide((0..n).rev().map(|i| r >> i & 1 == 1).chain([false]), generator)
}

/// The bits of a packet, position L - 1 first.
fn bits(packet: &[u8]) -> Vec<bool> {
    packet.iter().flat_map(|byte| (0..8).rev().map(move |i| byte >> i & 1 == 1)).collect()
}

fn bytes(bits: &[bool]) -> Vec<u8> {
    bits.chunks(8).map(|eight| eight.iter().fold(0, |byte, &bit| byte << 1 | u8::from(bit))).collect()
}

/// The bits as the CRC reads them: the initial value's bits are added to the first ones and the final value's to the last
/// ones, each value with its highest bit first.
fn read(mut bits: Vec<bool>, crc: Crc) -> Vec<bool> {
    let n = degree(crc.generator);
    let last = bits.len() - n;
    let add = |bits: &mut [bool], value: u64| {
        for (bit, place) in bits.iter_mut().zip((0..n).rev()) {
            *bit ^= value >> place & 1 == 1;
        }
    };
    add(&mut bits[..n], crc.init);
    add(&mut bits[last..], crc.xorout);
    bits
}

/// The packet with the bits at these positions flipped.
pub fn flipped(packet: &[u8], pattern: &[u16]) -> Vec<u8> {
    let mut bits = bits(packet);
    let last = bits.len() - 1;
    for &position in pattern {
        let place = last - usize::from(position);
        bits[place] = !bits[place];
    }
    bytes(&bits)
}

// ---- the conditions, each with its number; sizes as u128, so that nothing wraps

fn generator_fits(generator: u64) -> Answer<usize> {
    let n = degree(generator);
    if generator & 1 == 0 || !(3..=16).contains(&n) {
        return Err(1);
    }
    Ok(n)
}

fn length_fits(length: u128, n: usize) -> Answer<()> {
    if length <= n as u128 || length > 4096 {
        return Err(2);
    }
    Ok(())
}

fn values_fit(crc: Crc, n: usize) -> Answer<()> {
    if u128::from(crc.init) >= 1 << n || u128::from(crc.xorout) >= 1 << n {
        return Err(11);
    }
    Ok(())
}

fn limit_fits(limit: usize) -> Answer<()> {
    if limit == 0 || limit > MOST_POSITIONS {
        return Err(3);
    }
    Ok(())
}

fn syndrome_fits(syndrome: u64, n: usize) -> Answer<()> {
    if u128::from(syndrome) >= 1 << n {
        return Err(4);
    }
    Ok(())
}

fn table_lengths_fit(step: &[u16], first: &[u16], n: usize) -> Answer<()> {
    if step.len() != 1 << n || first.len() != 1 << n {
        return Err(5);
    }
    Ok(())
}

fn table_entries_right(step: &[u16], first: &[u16], generator: u64) -> Answer<()> {
    let right = tables_of(generator);
    if step != right.step || first != right.first {
        return Err(6);
    }
    Ok(())
}

fn mark_fits(mark: &Mark, length: usize, limit: usize) -> Answer<()> {
    if let Mark::After(pattern) = mark {
        let ascends = pattern.windows(2).all(|pair| pair[0] < pair[1]);
        let below = pattern.iter().all(|&position| usize::from(position) < length);
        if !ascends || !below || pattern.len() > limit {
            return Err(7);
        }
    }
    Ok(())
}

fn range_fits(start: usize, end: usize, length: u128, n: usize) -> Answer<()> {
    if start > end || 8 * end as u128 > length - n as u128 {
        return Err(9);
    }
    Ok(())
}

fn field_fits(start: usize, end: usize, field: usize) -> Answer<()> {
    if field < start || field as u128 + 2 > end as u128 || (field - start) & 1 == 1 {
        return Err(10);
    }
    Ok(())
}

fn trials_fit(trials: u64) -> Answer<()> {
    if trials == 0 || trials > 65535 {
        return Err(14);
    }
    Ok(())
}

fn packet_length(packet: &[u8]) -> u128 {
    8 * packet.len() as u128
}

// ---- remainder, seal, sum, stamp

pub fn remainder(crc: Crc, packet: &[u8]) -> Answer<u64> {
    let n = generator_fits(crc.generator)?;
    length_fits(packet_length(packet), n)?;
    values_fit(crc, n)?;
    Ok(divide(read(bits(packet), crc), crc.generator))
}

pub fn seal(crc: Crc, packet: &mut [u8]) -> Answer<()> {
    let n = generator_fits(crc.generator)?;
    length_fits(packet_length(packet), n)?;
    values_fit(crc, n)?;
    let mut bits = bits(packet);
    let last = bits.len() - n;
    bits[last..].fill(false);
    let r = divide(read(bits.clone(), crc), crc.generator);
    for i in 0..n {
        bits[last + i] = r >> (n - 1 - i) & 1 == 1;
    }
    packet.copy_from_slice(&bytes(&bits));
    Ok(())
}

pub fn sum(bytes: &[u8]) -> u16 {
    let mut padded = bytes.to_vec();
    if padded.len() % 2 == 1 {
        padded.push(0);
    }
    let mut total: u64 = padded.chunks(2).map(|word| 256 * u64::from(word[0]) + u64::from(word[1])).sum();
    while total > 0xFFFF {
        total = total % 0x10000 + total / 0x10000;
    }
    total as u16
}

/// The second check: the range has the sum FFFFh, or no checksum was made, which a field of 0000h says. A range that begins and ends
/// at one place says that there is no such check.
pub fn passes(packet: &[u8], start: usize, end: usize, field: usize) -> bool {
    if start == end {
        return true;
    }
    if packet[field] == 0 && packet[field + 1] == 0 {
        return true;
    }
    sum(&packet[start..end]) == 0xFFFF
}

pub fn stamp(generator: u64, start: usize, end: usize, field: usize, packet: &mut [u8]) -> Answer<()> {
    let n = generator_fits(generator)?;
    length_fits(packet_length(packet), n)?;
    range_fits(start, end, packet_length(packet), n)?;
    field_fits(start, end, field)?;
    packet[field..field + 2].fill(0);
    // a computed zero is sent as FFFFh
    let value = match 0xFFFF - sum(&packet[start..end]) {
        0 => 0xFFFF,
        computed => computed,
    };
    packet[field] = (value / 256) as u8;
    packet[field + 1] = (value % 256) as u8;
    Ok(())
}

// ---- the packet maker

/// The states after a seed, on numbers that do not wrap.
fn states(seed: u32) -> impl Iterator<Item = u32> {
    let mut state = u128::from(seed);
    std::iter::repeat_with(move || {
        state = (1664525 * state + 1013904223) % (1 << 32);
        u32::try_from(state).expect("a remainder modulo 2^32")
    })
}

/// Fills the packet with the top eight bits of each state, stamps it and seals it; the last state.
pub fn make(crc: Crc, seed: u32, start: usize, end: usize, field: usize, packet: &mut [u8]) -> Answer<u32> {
    let n = generator_fits(crc.generator)?;
    length_fits(packet_length(packet), n)?;
    values_fit(crc, n)?;
    range_fits(start, end, packet_length(packet), n)?;
    field_fits(start, end, field)?;
    let mut last = seed;
    for (byte, state) in packet.iter_mut().zip(states(seed)) {
        *byte = state.to_be_bytes()[0];
        last = state;
    }
    stamp(crc.generator, start, end, field, packet)?;
    seal(crc, packet)?;
    Ok(last)
}

// ---- tables

#[derive(Clone, Debug, PartialEq, Eq)]
pub struct Tables {
    pub step: Vec<u16>,
    pub first: Vec<u16>,
    pub period: u64,
}

/// The tables of an accepted generator, by their definitions. The last ones are kept.
pub fn tables_of(generator: u64) -> Rc<Tables> {
    const KEPT: usize = 128;
    thread_local! {
        static LAST: RefCell<Vec<(u64, Rc<Tables>)>> = const { RefCell::new(Vec::new()) };
    }
    LAST.with(|last| {
        let mut last = last.borrow_mut();
        if let Some((_, tables)) = last.iter().find(|(of, _)| *of == generator) {
            return tables.clone();
        }
        let tables = Rc::new(define_tables(generator));
        last.truncate(KEPT - 1);
        last.insert(0, (generator, tables.clone()));
        tables
    })
}

fn define_tables(generator: u64) -> Tables {
    let entries = 1 << degree(generator);
    let mut step = vec![0; entries];
    for t in 0..entries {
        step[times_x(t as u64, generator) as usize] = t as u16;
    }
    // Among more powers than there are remainders every remainder that a power leaves has been seen.
    let mut first = vec![65535; entries];
    let mut period = None;
    let mut left = 1;
    for p in 0..=entries {
        if p > 0 && left == 1 && period.is_none() {
            period = Some(p as u64);
        }
        if first[left as usize] == 65535 {
            first[left as usize] = p as u16;
        }
        left = times_x(left, generator);
    }
    Tables { step, first, period: period.expect("an odd generator has a period") }
}

pub fn tables(generator: u64, step: &mut [u16], first: &mut [u16]) -> Answer<u64> {
    let n = generator_fits(generator)?;
    table_lengths_fit(step, first, n)?;
    let right = tables_of(generator);
    step.copy_from_slice(&right.step);
    first.copy_from_slice(&right.first);
    Ok(right.period)
}

// ---- the list and its pages

/// The largest position minus the smallest, and 0 for one position or none.
pub fn span(pattern: &[u16]) -> u16 {
    let largest = pattern.iter().max().unwrap_or(&0);
    let smallest = pattern.iter().min().unwrap_or(&0);
    largest - smallest
}

/// The list's order: fewer positions first, then the smaller span, then by the positions from the smallest on, the lower first.
pub fn order(a: &[u16], b: &[u16]) -> Ordering {
    (a.len(), span(a), a).cmp(&(b.len(), span(b), b))
}

/// Every set of at most `most` positions below `length`, in no order that matters.
pub fn every_set(length: u16, most: usize, visit: &mut dyn FnMut(&[u16])) {
    fn sets_from(from: u16, length: u16, most: usize, chosen: &mut Pattern, visit: &mut dyn FnMut(&[u16])) {
        visit(chosen);
        if chosen.len() == most {
            return;
        }
        for position in from..length {
            chosen.push(position);
            sets_from(position + 1, length, most, chosen, visit);
            chosen.pop();
        }
    }
    sets_from(0, length, most, &mut Vec::new(), visit);
}

/// The list: of all sets of at most `limit` positions those with this syndrome, in the order. The last list is kept.
pub fn list(generator: u64, length: usize, limit: usize, syndrome: u64) -> Rc<Vec<Pattern>> {
    type Key = (u64, usize, usize, u64);
    thread_local! {
        static LAST: RefCell<Option<(Key, Rc<Vec<Pattern>>)>> = const { RefCell::new(None) };
    }
    let key = (generator, length, limit, syndrome);
    let kept = LAST.with(|last| last.borrow().clone()).filter(|(of, _)| *of == key);
    if let Some((_, list)) = kept {
        return list;
    }
    // what each power of x leaves: the next is the one before times x
    let powers: Vec<u64> =
        std::iter::successors(Some(1), |&left| Some(times_x(left, generator))).take(length).collect();
    let mut found: Vec<Pattern> = Vec::new();
    every_set(length as u16, limit, &mut |pattern| {
        if pattern.iter().fold(0, |s, &p| s ^ powers[usize::from(p)]) == syndrome {
            found.push(pattern.to_vec());
        }
    });
    found.sort_by(|a, b| order(a, b));
    let found = Rc::new(found);
    LAST.with(|last| last.replace(Some((key, found.clone()))));
    found
}

/// Whether the pattern stands behind the mark in the order.
fn follows(pattern: &Pattern, mark: &Mark) -> bool {
    match mark {
        Mark::Start => true,
        Mark::Ended => false,
        Mark::After(last) => order(pattern, last) == Ordering::Greater,
    }
}

pub fn record(pattern: &[u16]) -> Vec<u8> {
    let mut record = vec![pattern.len() as u8];
    for &position in pattern {
        record.push((position / 256) as u8);
        record.push((position % 256) as u8);
    }
    record
}

/// What a page call is given, apart from the output.
#[derive(Clone, Debug)]
pub struct PageOf<'a> {
    pub generator: u64,
    pub length: usize,
    pub limit: usize,
    pub syndrome: u64,
    pub step: &'a [u16],
    pub first: &'a [u16],
    pub mark: &'a Mark,
}

/// The bytes used, the records written, the next mark.
pub fn page(of: &PageOf<'_>, output: &mut [u8]) -> Answer<(usize, u64, Mark)> {
    let n = generator_fits(of.generator)?;
    length_fits(of.length as u128, n)?;
    limit_fits(of.limit)?;
    syndrome_fits(of.syndrome, n)?;
    table_lengths_fit(of.step, of.first, n)?;
    table_entries_right(of.step, of.first, of.generator)?;
    mark_fits(of.mark, of.length, of.limit)?;
    if output.len() < RECORD_BYTES {
        return Err(8);
    }
    let list = list(of.generator, of.length, of.limit, of.syndrome);
    let (mut used, mut written, mut reached) = (0, 0, of.mark.clone());
    for pattern in list.iter().filter(|pattern| follows(pattern, of.mark)) {
        let record = record(pattern);
        if used + record.len() > output.len() {
            return Ok((used, written, reached));
        }
        output[used..used + record.len()].copy_from_slice(&record);
        used += record.len();
        written += 1;
        reached = Mark::After(pattern.clone());
    }
    Ok((used, written, Mark::Ended))
}

// ---- the verdict

/// What a repair is given, apart from the output.
#[derive(Clone, Debug)]
pub struct RepairOf<'a> {
    pub crc: Crc,
    pub start: usize,
    pub end: usize,
    pub field: usize,
    pub limit: usize,
    pub step: &'a [u16],
    pub first: &'a [u16],
    pub packet: &'a [u8],
}

pub fn repair(of: &RepairOf<'_>, output: &mut [u8]) -> Answer<Verdict> {
    let n = generator_fits(of.crc.generator)?;
    length_fits(packet_length(of.packet), n)?;
    values_fit(of.crc, n)?;
    limit_fits(of.limit)?;
    table_lengths_fit(of.step, of.first, n)?;
    table_entries_right(of.step, of.first, of.crc.generator)?;
    if output.len() != of.packet.len() {
        return Err(8);
    }
    range_fits(of.start, of.end, packet_length(of.packet), n)?;
    if of.start < of.end {
        field_fits(of.start, of.end, of.field)?;
    }

    let syndrome = divide(read(bits(of.packet), of.crc), of.crc.generator);
    if syndrome == 0 && passes(of.packet, of.start, of.end, of.field) {
        return Ok(Verdict::Intact);
    }
    let passing: Vec<Pattern> = list(of.crc.generator, 8 * of.packet.len(), of.limit, syndrome)
        .iter()
        .filter(|pattern| passes(&flipped(of.packet, pattern), of.start, of.end, of.field))
        .cloned()
        .collect();
    Ok(match &passing[..] {
        [] => Verdict::None,
        [pattern] => {
            output.copy_from_slice(&flipped(of.packet, pattern));
            Verdict::Repaired(pattern.clone())
        }
        [pattern, ..] => Verdict::Several(passing.len() as u64, pattern.clone()),
    })
}

// ---- the simulation

/// The positions that so many draws from a state take, in the order of the draws, and the last state. The positions not yet taken
/// ascend, and are one fewer after each draw.
pub fn draws(length: usize, count: usize, state: u32) -> (Pattern, u32) {
    let mut untaken: Pattern = (0..length as u16).collect();
    let (mut taken, mut last) = (Vec::new(), state);
    for state in states(state).take(count) {
        taken.push(untaken.remove(state as usize % untaken.len()));
        last = state;
    }
    (taken, last)
}

/// What a simulation is given, apart from the memory that it may write.
#[derive(Clone, Debug)]
pub struct SimulateOf<'a> {
    pub crc: Crc,
    pub seed: u32,
    pub start: usize,
    pub end: usize,
    pub field: usize,
    pub limit: usize,
    pub trials: u64,
    pub step: &'a [u16],
    pub first: &'a [u16],
}

/// One trial: the packet made, the packet received, the verdict, and the state after the draws. The output is the repair's.
pub fn trial(
    of: &SimulateOf<'_>,
    flips: usize,
    state: u32,
    len: usize,
    output: &mut [u8],
) -> (Vec<u8>, Vec<u8>, Verdict, u32) {
    let mut made = vec![0; len];
    let state = make(of.crc, state, of.start, of.end, of.field, &mut made).expect("a packet can be made");
    let (positions, state) = draws(8 * len, flips, state);
    let received = flipped(&made, &positions);
    let repair_of = RepairOf {
        crc: of.crc,
        start: of.start,
        end: of.end,
        field: of.field,
        limit: of.limit,
        step: of.step,
        first: of.first,
        packet: &received,
    };
    let verdict = repair(&repair_of, output).expect("it can be repaired");
    (made, received, verdict, state)
}

/// The state after the last draw. The counts are rows for 0, 1, ... flips: intact, repaired to the packet made, repaired otherwise,
/// several, none.
pub fn simulate(of: &SimulateOf<'_>, packet: &mut [u8], output: &mut [u8], counts: &mut [u32]) -> Answer<u32> {
    let n = generator_fits(of.crc.generator)?;
    length_fits(packet_length(packet), n)?;
    values_fit(of.crc, n)?;
    limit_fits(of.limit)?;
    table_lengths_fit(of.step, of.first, n)?;
    table_entries_right(of.step, of.first, of.crc.generator)?;
    if output.len() != packet.len() || counts.len() != COUNTS {
        return Err(8);
    }
    range_fits(of.start, of.end, packet_length(packet), n)?;
    field_fits(of.start, of.end, of.field)?;
    trials_fit(of.trials)?;

    counts.fill(0);
    let mut state = of.seed;
    for (flips, row) in counts.chunks_mut(5).enumerate() {
        for _ in 0..of.trials {
            let (made, received, verdict, last) = trial(of, flips, state, packet.len(), output);
            let column = match verdict {
                Verdict::Intact => 0,
                Verdict::Repaired(pattern) if flipped(&received, &pattern) == made => 1,
                Verdict::Repaired(_) => 2,
                Verdict::Several(..) => 3,
                Verdict::None => 4,
            };
            row[column] += 1;
            packet.copy_from_slice(&received);
            state = last;
        }
    }
    Ok(state)
}

// ---- the bytes of marks and verdicts

pub fn mark_bytes(mark: &Mark) -> Vec<u8> {
    let mut bytes = match mark {
        Mark::Start => vec![0xFE],
        Mark::Ended => vec![0xFF],
        Mark::After(pattern) => record(pattern),
    };
    bytes.resize(MARK_BYTES, 0);
    bytes
}

/// The positions of the record that the bytes begin with, if it is one.
fn read_record(bytes: &[u8]) -> Option<Pattern> {
    let positions = bytes[1..].chunks(2).map(|two| 256 * u16::from(two[0]) + u16::from(two[1]));
    let count = usize::from(bytes[0]);
    (count <= MOST_POSITIONS).then(|| positions.take(count).collect())
}

/// The mark of some bytes, if they are one. Bytes behind it are not read.
pub fn read_mark(bytes: &[u8]) -> Option<Mark> {
    match bytes.first() {
        _ if bytes.len() != MARK_BYTES => None,
        Some(0xFE) => Some(Mark::Start),
        Some(0xFF) => Some(Mark::Ended),
        _ => read_record(bytes).map(Mark::After),
    }
}

pub fn verdict_bytes(verdict: &Verdict) -> Vec<u8> {
    let none = Vec::new();
    let (kind, count, pattern) = match verdict {
        Verdict::Intact => (0, 0, &none),
        Verdict::Repaired(pattern) => (1, 1, pattern),
        Verdict::Several(count, pattern) => (2, *count, pattern),
        Verdict::None => (3, 0, &none),
    };
    let mut bytes = vec![kind];
    bytes.extend(count.to_be_bytes());
    bytes.extend(record(pattern));
    bytes.resize(VERDICT_BYTES, 0);
    bytes
}

/// The verdict of some bytes, if they are one. Where its kind has no pattern, only the count of positions is looked at.
pub fn read_verdict(bytes: &[u8]) -> Option<Verdict> {
    let pattern = read_record(&bytes[9..])?;
    let count = bytes[1..9].iter().fold(0, |count, &byte| 256 * count + u64::from(byte));
    match bytes[0] {
        0 => Some(Verdict::Intact),
        1 => Some(Verdict::Repaired(pattern)),
        2 => Some(Verdict::Several(count, pattern)),
        3 => Some(Verdict::None),
        _ => None,
    }
}

// ---- blocks

fn block_fits(rows: usize, columns: usize, input: &[u8], output: &[u8]) -> Answer<()> {
    if rows == 0 || rows > 64 || columns == 0 || columns > 64 {
        return Err(12);
    }
    if input.len() != rows * columns || output.len() != rows * columns {
        return Err(13);
    }
    Ok(())
}

/// Each row is a chunk of the input. A column has one byte of each row.
pub fn scatter(rows: usize, columns: usize, input: &[u8], output: &mut [u8]) -> Answer<()> {
    block_fits(rows, columns, input, output)?;
    let mut block: Vec<_> = input.chunks(columns).map(|row| row.iter()).collect();
    for column in output.chunks_mut(rows) {
        for (byte, row) in column.iter_mut().zip(&mut block) {
            *byte = *row.next().expect("a row has a byte for each column");
        }
    }
    Ok(())
}

/// Bytes go down one column after the other; then the rows are joined.
pub fn gather(rows: usize, columns: usize, input: &[u8], output: &mut [u8]) -> Answer<()> {
    block_fits(rows, columns, input, output)?;
    let mut block = vec![Vec::new(); rows];
    for (&byte, row) in input.iter().zip((0..rows).cycle()) {
        block[row].push(byte);
    }
    output.copy_from_slice(&block.concat());
    Ok(())
}
