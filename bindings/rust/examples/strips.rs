//! Draws the first patterns of a list as strips: `cargo run --example strips`.
//!
//! A packet is damaged in three bits. Every set of at most three bit errors that explains its remainder is in the list. Sets
//! of fewer positions come first there, and of as many positions the narrow ones.
//!
//! A strip has a character for each bit of the packet, with position 0 at the right: `#` for a position of the pattern, `.` for
//! any other. Beside it stand the pattern's span and its positions.

use rangqoda::{catalogue::CRC_8_SMBUS as CRC, remainder, seal, Mark, Pattern, Refusal, Tables};

const LIMIT: usize = 3;

/// Room for twelve records of three positions.
const PAGE_BYTES: usize = 12 * (1 + 2 * LIMIT);

/// The strip of a pattern in a packet of so many bits.
fn strip(pattern: &Pattern, length: usize) -> String {
    let mut bits = vec!['.'; length];
    for &position in pattern.as_slice() {
        bits[length - 1 - usize::from(position)] = '#';
    }
    bits.into_iter().collect()
}

fn run() -> Result<(), Refusal> {
    // Four bytes of data, one of CRC. The bits at positions 26, 27 and 29 are flipped.
    let mut packet = *b"ch 7\0";
    seal(CRC, &mut packet)?;
    packet[1] ^= 0b0010_1100;

    let tables = Tables::new(CRC.generator)?;
    let (length, syndrome) = (8 * packet.len(), remainder(CRC, &packet)?);
    let listed = tables.patterns(length, LIMIT, syndrome)?.count();
    let mut output = [0; PAGE_BYTES];
    let page = tables.page(length, LIMIT, syndrome, Mark::Start, &mut output)?;
    println!("{} of {listed} patterns, of as many positions the narrow ones first", page.written);
    for pattern in page.patterns(&output) {
        println!("{}  span {:>2}  {pattern:?}", strip(&pattern, length), pattern.span());
    }
    Ok(())
}

fn main() {
    if let Err(refusal) = run() {
        eprintln!("{refusal}");
        std::process::exit(1);
    }
}
