//! Seals a packet, damages it and repairs it: `cargo run --example repair`.

use rangqoda::{catalogue, hand_back, remainder, seal, stamp, Crc, Refusal, Tables, Verdict};

/// An inserter whose register starts at all ones.
const CRC: Crc = catalogue::CRC_16_IBM_3740;

fn show(what: &str, packet: &[u8]) {
    let bytes: Vec<String> = packet.iter().map(|byte| format!("{byte:02X}")).collect();
    println!("{what:<9} {}", bytes.join(" "));
}

fn run() -> Result<(), Refusal> {
    // Twelve bytes of data, two of checksum at byte 12, two of CRC. The checksum is over all but the CRC.
    let mut sent = *b"ch 7 badge 2\0\0\0\0";
    let (range, field) = (0..14, 12);
    stamp(CRC.generator, range.clone(), field, &mut sent)?;
    seal(CRC, &mut sent)?;
    show("sent", &sent);

    let mut received = sent;
    received[3] ^= 0b0000_0100;
    received[9] ^= 0b0100_0000;
    received[14] ^= 0b0000_0001;
    show("received", &received);

    let tables = Tables::new(CRC.generator)?;
    let syndrome = remainder(CRC, &received)?;
    println!("remainder {syndrome:04X}h");
    for limit in 1..=4 {
        let listed = tables.patterns(8 * received.len(), limit, syndrome)?.count();
        let mut copy = [0; 16];
        let verdict = tables.repair(CRC, range.clone(), field, limit, &received, &mut copy)?;
        println!("up to {limit}: {listed} patterns listed, {verdict:?}");
        if let Verdict::Repaired(_) = verdict {
            let publish = hand_back(&received, &copy, &verdict);
            show("repaired", publish);
            assert_eq!(publish, sent);
        }
    }
    Ok(())
}

fn main() {
    if let Err(refusal) = run() {
        eprintln!("{refusal}");
        std::process::exit(1);
    }
}
