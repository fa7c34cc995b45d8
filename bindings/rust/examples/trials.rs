//! What repairs make of damage that is greater than their limit: `cargo run --release --example trials`.
//!
//! First, packets of noise. Nothing was sent that they could be repaired to, so every repair of one is false, and so is every
//! Intact. Beside the count stands the estimate that can be made without a trial: the sets of at most N positions, divided by
//! 2^16 (the CRC) and by 32,768 (the checksum: one sum in 65,535 is right, and one field in 65,536 is zero), are those expected
//! to pass.
//!
//! Then packets that were stamped and sealed, with some bits flipped: how many are repaired to what was sent, and how many
//! to something else. Then the same of packets that were sealed with a field of zero, as sent where no checksum was made.
//!
//! Then noise and flipped bits of packets that carry no checksum.
//!
//! Last, drop-outs: stamped and sealed packets whose last bytes are all 00h or all FFh, as a receiver may leave them that lost the
//! signal. Every repair of one is false too. Those are counted apart after which the field is zero, so that no sum was asked for.

use rangqoda::catalogue::{CRC_16_IBM_3740, CRC_16_XMODEM as CRC};
use rangqoda::{seal, stamp, Crc, Refusal, Tables, Verdict, CCITT, NO_CHECKSUM};
use std::ops::Range;

/// Where the checksum stands.
const FIELD: usize = 0;

/// Where it stands in packets of 64 bytes whose last bytes are lost, and it with them.
const LAST_FIELD: usize = 60;

const NOISE: &str = "bytes  N expected to pass   trials repaired  several   intact";
const FLIPS: &str = "bytes  N  flips   trials  rightly  falsely  several     none";
const DROP_OUTS: &str =
    "CRC              field  lost as  N   trials  falsely  to a field of zero  several     none   intact";
const ALL_LOST: &str = "CRC              field  lost as  N  verdict";

/// How many sets of at most `limit` positions there are among `bits`.
fn sets_of_at_most(limit: usize, bits: usize) -> f64 {
    let mut sets = 1.0;
    let mut all = 1.0;
    for count in 1..=limit {
        sets *= (bits + 1 - count) as f64 / count as f64;
        all += sets;
    }
    all
}

/// The next 64 random bits, by splitmix64, which is linear neither over bits, as the CRC is, nor over whole numbers, as the
/// checksum is.
fn random(state: &mut u64) -> u64 {
    *state = state.wrapping_add(0x9E3779B97F4A7C15);
    let mut mixed = *state;
    mixed = (mixed ^ (mixed >> 30)).wrapping_mul(0xBF58476D1CE4E5B9);
    mixed = (mixed ^ (mixed >> 27)).wrapping_mul(0x94D049BB133111EB);
    mixed ^ (mixed >> 31)
}

fn random_bytes(bytes: usize, state: &mut u64) -> Vec<u8> {
    (0..bytes / 8).flat_map(|_| random(state).to_be_bytes()).collect()
}

/// The packet with `flips` different bits flipped.
fn damaged(packet: &[u8], flips: usize, state: &mut u64) -> Vec<u8> {
    let mut flipped = packet.to_vec();
    let mut left = flips;
    while left > 0 {
        let bit = random(state) as usize % (8 * packet.len());
        let mask = 0x80 >> (bit % 8);
        if (flipped[bit / 8] ^ packet[bit / 8]) & mask == 0 {
            flipped[bit / 8] ^= mask;
            left -= 1;
        }
    }
    flipped
}

/// The range of a checksum over all but the CRC.
fn all_but_the_crc(bytes: usize) -> Range<usize> {
    0..bytes - 2
}

fn noise(tables: &Tables, range: Range<usize>, bytes: usize, limit: usize, trials: usize) -> Result<(), Refusal> {
    let mut state = 1;
    let mut copy = vec![0; bytes];
    let (mut repaired, mut several, mut intact) = (0, 0, 0);
    for _ in 0..trials {
        let packet = random_bytes(bytes, &mut state);
        match tables.repair(CRC, range.clone(), FIELD, limit, &packet, &mut copy)? {
            Verdict::Repaired(_) => repaired += 1,
            Verdict::Several { .. } => several += 1,
            Verdict::Intact => intact += 1,
            Verdict::None => {}
        }
    }
    let sums = if range.is_empty() { 1.0 } else { 32768.0 };
    let expected = sets_of_at_most(limit, 8 * bytes) / 65536.0 / sums;
    println!("{bytes:>5} {limit:>2} {expected:>16.9} {trials:>8} {repaired:>8} {several:>8} {intact:>8}");
    Ok(())
}

/// How packets are sent.
#[derive(Clone, Copy)]
enum Sent {
    /// With a checksum over all but the CRC.
    Stamped,
    /// With a field of zero in its stead.
    Unsummed,
    /// Without a field.
    Bare,
}

fn flips(tables: &Tables, how: Sent, bytes: usize, limit: usize, flips: usize, trials: usize) -> Result<(), Refusal> {
    let mut state = 1;
    let mut copy = vec![0; bytes];
    let range = if let Sent::Bare = how { NO_CHECKSUM } else { all_but_the_crc(bytes) };
    let (mut rightly, mut falsely, mut several, mut none) = (0, 0, 0, 0);
    for _ in 0..trials {
        let mut sent = random_bytes(bytes, &mut state);
        match how {
            Sent::Stamped => stamp(CCITT, range.clone(), FIELD, &mut sent)?,
            Sent::Unsummed => sent[FIELD..FIELD + 2].fill(0),
            Sent::Bare => {}
        }
        seal(CRC, &mut sent)?;
        let received = damaged(&sent, flips, &mut state);
        match tables.repair(CRC, range.clone(), FIELD, limit, &received, &mut copy)? {
            Verdict::Repaired(_) if copy == sent => rightly += 1,
            Verdict::Repaired(_) | Verdict::Intact => falsely += 1,
            Verdict::Several { .. } => several += 1,
            Verdict::None => none += 1,
        }
    }
    println!("{bytes:>5} {limit:>2} {flips:>6} {trials:>8} {rightly:>8} {falsely:>8} {several:>8} {none:>8}");
    Ok(())
}

/// How packets with drop-outs are sealed, where their field stands, and what the lost bytes became.
struct DropOut(&'static str, Crc, usize, u8);

/// Packets of 64 bytes of which the last 9 to 60 were lost.
fn drop_outs(tables: &Tables, how: &DropOut, limit: usize, trials: usize) -> Result<(), Refusal> {
    let &DropOut(name, crc, field, filling) = how;
    let mut state = 1;
    let mut copy = [0; 64];
    let range = all_but_the_crc(64);
    let (mut falsely, mut to_zero, mut several, mut none, mut intact) = (0, 0, 0, 0, 0);
    for _ in 0..trials {
        let mut packet = random_bytes(64, &mut state);
        stamp(crc.generator, range.clone(), field, &mut packet)?;
        seal(crc, &mut packet)?;
        let lost = 9 + random(&mut state) as usize % 52;
        packet[64 - lost..].fill(filling);
        match tables.repair(crc, range.clone(), field, limit, &packet, &mut copy)? {
            Verdict::Repaired(_) => {
                falsely += 1;
                to_zero += usize::from(copy[field..field + 2] == [0, 0]);
            }
            Verdict::Several { .. } => several += 1,
            Verdict::None => none += 1,
            Verdict::Intact => intact += 1,
        }
    }
    print!("{name:<15} {field:>6}      {filling:02X}h {limit:>2} {trials:>8}");
    println!(" {falsely:>8} {to_zero:>19} {several:>8} {none:>8} {intact:>8}");
    Ok(())
}

/// What is said of a packet of 64 bytes of which nothing is left.
fn all_lost(tables: &Tables, how: &DropOut, limit: usize) -> Result<(), Refusal> {
    let &DropOut(name, crc, field, filling) = how;
    let verdict = tables.repair(crc, all_but_the_crc(64), field, limit, &[filling; 64], &mut [0; 64])?;
    println!("{name:<15} {field:>6}      {filling:02X}h {limit:>2}  {verdict:?}");
    Ok(())
}

fn run() -> Result<(), Refusal> {
    let tables = Tables::new(CCITT)?;
    println!("Noise\n{NOISE}");
    for (bytes, limit, trials) in [
        (16, 3, 100_000),
        (16, 4, 20_000),
        (64, 2, 400_000),
        (64, 3, 20_000),
        (64, 4, 500),
        (512, 2, 20_000),
        (512, 3, 500),
    ] {
        noise(&tables, all_but_the_crc(bytes), bytes, limit, trials)?;
    }
    println!("\nFlipped bits\n{FLIPS}");
    for (bytes, limit, flipped, trials) in [
        (16, 2, 1, 20_000),
        (16, 2, 2, 20_000),
        (16, 2, 3, 100_000),
        (16, 2, 4, 100_000),
        (16, 2, 6, 100_000),
        (64, 1, 1, 20_000),
        (64, 1, 3, 100_000),
        (64, 2, 1, 20_000),
        (64, 2, 2, 20_000),
        (64, 2, 3, 100_000),
        (64, 2, 4, 100_000),
        (64, 2, 6, 100_000),
        (64, 3, 1, 2_000),
        (64, 3, 2, 2_000),
        (64, 3, 3, 2_000),
        (64, 3, 4, 2_000),
        (64, 3, 5, 2_000),
        (64, 4, 1, 200),
        (64, 4, 4, 200),
        (512, 1, 1, 10_000),
        (512, 1, 3, 10_000),
        (512, 2, 1, 10_000),
        (512, 2, 2, 10_000),
        (512, 2, 3, 10_000),
        (512, 2, 4, 10_000),
    ] {
        flips(&tables, Sent::Stamped, bytes, limit, flipped, trials)?;
    }
    println!("\nFlipped bits, a field of zero\n{FLIPS}");
    for (bytes, limit, flipped, trials) in [
        (16, 1, 1, 20_000),
        (16, 1, 3, 100_000),
        (16, 2, 2, 20_000),
        (16, 2, 4, 20_000),
        (64, 1, 1, 20_000),
        (64, 1, 3, 100_000),
        (64, 2, 2, 20_000),
        (64, 2, 4, 20_000),
        (512, 1, 1, 10_000),
        (512, 1, 3, 10_000),
    ] {
        flips(&tables, Sent::Unsummed, bytes, limit, flipped, trials)?;
    }
    println!("\nNoise, no checksum\n{NOISE}");
    for (bytes, limit, trials) in
        [(16, 1, 100_000), (16, 2, 100_000), (16, 3, 20_000), (64, 1, 100_000), (64, 2, 20_000), (512, 1, 20_000)]
    {
        noise(&tables, NO_CHECKSUM, bytes, limit, trials)?;
    }
    println!("\nFlipped bits, no checksum\n{FLIPS}");
    for (bytes, limit, flipped, trials) in [
        (16, 1, 1, 20_000),
        (16, 1, 2, 20_000),
        (16, 1, 3, 100_000),
        (16, 2, 1, 20_000),
        (16, 2, 2, 20_000),
        (16, 2, 3, 20_000),
        (16, 2, 4, 20_000),
        (64, 1, 1, 20_000),
        (64, 1, 3, 100_000),
        (64, 2, 1, 20_000),
        (64, 2, 2, 20_000),
        (64, 2, 4, 20_000),
        (512, 1, 1, 10_000),
        (512, 1, 3, 10_000),
        (512, 2, 2, 10_000),
    ] {
        flips(&tables, Sent::Bare, bytes, limit, flipped, trials)?;
    }
    let lost = [
        DropOut("CRC-16/XMODEM", CRC, LAST_FIELD, 0x00),
        DropOut("CRC-16/XMODEM", CRC, LAST_FIELD, 0xFF),
        DropOut("CRC-16/XMODEM", CRC, FIELD, 0x00),
        DropOut("CRC-16/IBM-3740", CRC_16_IBM_3740, LAST_FIELD, 0x00),
        DropOut("CRC-16/IBM-3740", CRC_16_IBM_3740, LAST_FIELD, 0xFF),
    ];
    println!("\nDrop-outs: the last 9 to 60 of 64 bytes\n{DROP_OUTS}");
    for how in &lost {
        drop_outs(&tables, how, 1, 40_000)?;
        drop_outs(&tables, how, 2, 40_000)?;
    }
    println!("\nDrop-outs: all of 64 bytes\n{ALL_LOST}");
    for how in &lost {
        all_lost(&tables, how, 1)?;
        all_lost(&tables, how, 2)?;
    }
    Ok(())
}

fn main() {
    if let Err(refusal) = run() {
        eprintln!("{refusal}");
        std::process::exit(1);
    }
}
