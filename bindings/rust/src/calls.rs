//! The calls on packets and blocks of bytes.

use crate::refusal::judged;
use crate::{ffi, Crc, Refusal, TableSlices, Verdict, VERDICT_BYTES};
use std::ops::Range;

/// The range of a packet that carries no checksum, accepted with every accepted length: a repair then goes by the CRC alone, and any
/// number will do for its field. Any other accepted range with start = end says the same. So take care that a range that was computed
/// is not empty by mistake: neither it nor any field with it is refused.
///
/// Without a checksum the estimate for noise is not divided by 32,768. With [`CCITT`](crate::CCITT) and 16 bytes 193 of 100,000
/// packets of noise were repaired at N = 1, and 8,068 at N = 2; and 1 in 2^n is even said to be intact. With four flips, at N = 2, 3,272
/// of 20,000 were falsely repaired in 16 bytes (24 of 100,000 with a checksum) and 940 of 20,000 in 64 (288 of 100,000); with three, at
/// N = 1, 740 of 100,000 in 16 bytes and 1,212 of 10,000 in 512. Take N = 1 there.
pub const NO_CHECKSUM: Range<usize> = 0..0;

/// The remainder of a packet. Refused by 1, 2, 11.
///
/// ```
/// use rangqoda::{remainder, Crc, Refusal, FIVE};
///
/// assert_eq!(remainder(Crc::plain(FIVE), &[0xFF, 0xFF, 0x05]), Ok(0));
/// assert_eq!(remainder(Crc { generator: FIVE, init: 31, xorout: 31 }, &[0x00]), Ok(6));
/// assert_eq!(remainder(Crc { generator: FIVE, init: 32, xorout: 0 }, &[0x00]), Err(Refusal::Values));
/// ```
// inlined with `judged`: a short packet's remainder takes little longer than a call
#[inline]
pub fn remainder(crc: Crc, packet: &[u8]) -> Result<u64, Refusal> {
    let mut remainder = 0;
    // SAFETY: a slice's pointer is good for its length, and the lent parts are borrowed apart from each other.
    judged(unsafe {
        ffi::rangqoda_remainder(crc.generator, crc.init, crc.xorout, packet.as_ptr(), packet.len(), &mut remainder)
    })?;
    Ok(remainder)
}

/// Seals a packet: gives its CRC, the last n bits, the one value for which the remainder is 0. Refused by 1, 2, 11.
///
/// ```
/// use rangqoda::{catalogue::CRC_16_GENIBUS, remainder, seal};
///
/// let mut packet = *b"screen time\0\0";
/// seal(CRC_16_GENIBUS, &mut packet)?;
/// assert_eq!(remainder(CRC_16_GENIBUS, &packet), Ok(0));
/// # Ok::<(), rangqoda::Refusal>(())
/// ```
pub fn seal(crc: Crc, packet: &mut [u8]) -> Result<(), Refusal> {
    // SAFETY: as in `remainder`.
    judged(unsafe { ffi::rangqoda_seal(crc.generator, crc.init, crc.xorout, packet.as_mut_ptr(), packet.len()) })
}

/// The sum of RFC 1071: bytes as 16-bit numbers, high byte first, with a zero behind an odd one, and carries added back in.
///
/// ```
/// assert_eq!(rangqoda::sum(&[0x00, 0x01, 0xF2, 0x03, 0xF4, 0xF5, 0xF6, 0xF7]), 0xDDF2);
/// ```
#[must_use]
pub fn sum(bytes: &[u8]) -> u16 {
    // SAFETY: as in `remainder`.
    unsafe { ffi::rangqoda_sum(bytes.as_ptr(), bytes.len()) }
}

/// Stamps a packet, so that the sum of the range is FFFFh: the two bytes at `field`, an index into the packet, become what the sum of the
/// range, taken with these two as zero, lacks to FFFFh. Where it lacks nothing they become FFFFh, since 0000h would say that no checksum
/// was made. Refused by 1, 2, 9, 10, and so by 10 for an accepted range with start = end, which has no field.
///
/// ```
/// use rangqoda::{stamp, sum, Refusal, CCITT};
///
/// let mut packet = [7, 7, 0, 0, 7, 0, 0];
/// stamp(CCITT, 0..5, 2, &mut packet)?;
/// assert_eq!(sum(&packet[..5]), 0xFFFF);
/// assert_eq!(stamp(CCITT, 0..5, 1, &mut packet), Err(Refusal::Field));
/// # Ok::<(), Refusal>(())
/// ```
pub fn stamp(generator: u64, range: Range<usize>, field: usize, packet: &mut [u8]) -> Result<(), Refusal> {
    // SAFETY: as in `remainder`.
    judged(unsafe { ffi::rangqoda_stamp(generator, range.start, range.end, field, packet.as_mut_ptr(), packet.len()) })
}

/// Makes a packet from a seed: fills it, stamps the range at `field`, and seals it. The same numbers make the same packet,
/// whatever it held before. Refused by 1, 2, 11, 9, 10, in this order, and so by 10 for an accepted range with start = end, which
/// has no field.
///
/// The bytes come from a 32-bit state, the seed to begin with. Each step goes from a state s to (1664525 s + 1013904223) mod 2^32,
/// and the top eight bits of that are the next byte, from the first one on. Returned is the state after as many steps as the
/// packet has bytes. A repair of the packet by the same CRC, range and field says [`Verdict::Intact`].
///
/// For more packets pass the state as the next seed. Seeds that follow each other are a poor choice for trials: most give the
/// same first byte as their neighbours, and later bytes at fixed distances from theirs, give or take 1.
///
/// ```
/// use rangqoda::{catalogue::CRC_16_XMODEM, make};
///
/// // A footnote: "CRC-16/XMODEM, 16 bytes, checksum over bytes 0 to 13 at byte 12, seed 7".
/// let mut packet = [0; 16];
/// let state = make(CRC_16_XMODEM, 7, 0..14, 12, &mut packet)?;
/// assert_eq!(packet, *b"\x3D\xE9\x9C\xED\x0C\xDB\x5C\x0D\x11\xFB\xF9\x88\xB0\xBC\x17\x21");
/// assert_eq!(state, 0xC704D217);
/// # Ok::<(), rangqoda::Refusal>(())
/// ```
pub fn make(crc: Crc, seed: u32, range: Range<usize>, field: usize, packet: &mut [u8]) -> Result<u32, Refusal> {
    let mut state = 0;
    // SAFETY: as in `remainder`.
    judged(unsafe {
        ffi::rangqoda_make(
            crc.generator,
            crc.init,
            crc.xorout,
            seed,
            range.start,
            range.end,
            field,
            packet.as_mut_ptr(),
            packet.len(),
            &mut state,
        )
    })?;
    Ok(state)
}

/// Scatters bytes before storage: they are written into a block by rows and read by columns, so that `output[j * rows + i]` is
/// `input[i * columns + j]`. Refused by 12, 13.
///
/// Of any run of adjacent bytes of the output, at most as many as there are rows, no two come from one row. So where such a run is
/// lost, and as many other bytes stand in its place, [`gather`] gives back every row with at most one byte that differs. That byte
/// is not restored: up to eight of its bits may be wrong, and a repair explains at most four.
///
/// ```
/// use rangqoda::{gather, scatter};
///
/// // Three rows of four bytes; then three adjacent bytes are lost.
/// let mut stored = [0; 12];
/// scatter(3, 4, b"ROW1row2Row3", &mut stored)?;
/// assert_eq!(stored, *b"RrROooWww123");
/// stored[4..7].fill(b'?');
///
/// let mut restored = [0; 12];
/// gather(3, 4, &stored, &mut restored)?;
/// assert_eq!(restored, *b"RO?1r?w2R?w3");
/// # Ok::<(), rangqoda::Refusal>(())
/// ```
pub fn scatter(rows: usize, columns: usize, input: &[u8], output: &mut [u8]) -> Result<(), Refusal> {
    // SAFETY: as in `remainder`.
    judged(unsafe {
        ffi::rangqoda_scatter(rows, columns, input.as_ptr(), input.len(), output.as_mut_ptr(), output.len())
    })
}

/// The way back from [`scatter`], with the same rows and columns: bytes are written by columns and read by rows, so that
/// `output[i * columns + j]` is `input[j * rows + i]`. Each of the two undoes the other. Refused by 12, 13.
///
/// ```
/// use rangqoda::{gather, Refusal};
///
/// let mut restored = [0; 6];
/// gather(2, 3, b"adbecf", &mut restored)?;
/// assert_eq!(restored, *b"abcdef");
/// assert_eq!(gather(2, 3, b"adbec", &mut restored), Err(Refusal::BlockLength));
/// # Ok::<(), Refusal>(())
/// ```
pub fn gather(rows: usize, columns: usize, input: &[u8], output: &mut [u8]) -> Result<(), Refusal> {
    // SAFETY: as in `remainder`.
    judged(unsafe {
        ffi::rangqoda_gather(rows, columns, input.as_ptr(), input.len(), output.as_mut_ptr(), output.len())
    })
}

/// Repairs a packet whose range carries a checksum at `field`, or which carries none ([`NO_CHECKSUM`]; then `field` may be any
/// number). `output` is as long as the packet; it changes only for [`Verdict::Repaired`], when it holds the flipped packet. Refused by
/// 1, 2, 11, 3, 5, 6, 8, 9, 10, in this order.
///
/// A field of 0000h says that no checksum was made (RFC 768). A packet with such a field passes the second check without a sum, as it was
/// received or as a pattern's flips make it. Of packets sent so the CRC alone strikes wrong patterns that leave the field zero: take N = 1
/// for them. Zeros in the place of lost bytes look the same: see [what a repair does not tell](crate#what-a-repair-does-not-tell).
///
/// ```
/// use rangqoda::{repair, Crc, Pattern, Tables, Verdict, FIVE, NO_CHECKSUM};
///
/// let tables = Tables::new(FIVE)?;
/// let mut output = [0; 3];
/// let verdict = repair(Crc::plain(FIVE), 0..2, 0, 1, tables.as_slices(), &[0x7F, 0xFF, 0x05], &mut output)?;
/// assert_eq!(verdict, Verdict::Repaired(Pattern::new(&[23]).unwrap()));
/// assert_eq!(output, [0xFF, 0xFF, 0x05]);
///
/// // Of these two patterns the checksum struck one; without a checksum both are left.
/// let verdict = repair(Crc::plain(FIVE), NO_CHECKSUM, 0, 1, tables.as_slices(), &[0x7F, 0xFF, 0x05], &mut output)?;
/// assert_eq!(verdict, Verdict::Several { count: 2, pattern: Pattern::new(&[8]).unwrap() });
/// # Ok::<(), rangqoda::Refusal>(())
/// ```
pub fn repair(
    crc: Crc,
    range: Range<usize>,
    field: usize,
    limit: usize,
    tables: TableSlices<'_>,
    packet: &[u8],
    output: &mut [u8],
) -> Result<Verdict, Refusal> {
    // zeros would be Intact
    let mut verdict = [0xFF; VERDICT_BYTES];
    // SAFETY: as in `remainder`.
    judged(unsafe {
        ffi::rangqoda_repair(
            crc.generator,
            crc.init,
            crc.xorout,
            range.start,
            range.end,
            field,
            limit,
            tables.step.as_ptr(),
            tables.step.len(),
            tables.first.as_ptr(),
            tables.first.len(),
            packet.as_ptr(),
            packet.len(),
            output.as_mut_ptr(),
            output.len(),
            verdict.as_mut_ptr(),
            verdict.len(),
        )
    })?;
    Ok(Verdict::from_bytes(&verdict).expect("the library writes a verdict"))
}

/// The packet to publish from after a repair: the received bytes themselves after [`Verdict::Intact`], the copy (the
/// repair's output) after [`Verdict::Repaired`], and otherwise a part of the received bytes with nothing in it.
///
/// ```
/// use rangqoda::{hand_back, Verdict};
///
/// assert!(hand_back(b"received", b"a copy..", &Verdict::None).is_empty());
/// ```
#[must_use]
pub fn hand_back<'a>(received: &'a [u8], copy: &'a [u8], verdict: &Verdict) -> &'a [u8] {
    let bytes = verdict.to_bytes();
    // SAFETY: as in `remainder`.
    match unsafe { ffi::rangqoda_publish(bytes.as_ptr(), bytes.len()) } {
        0 => received,
        1 => copy,
        _ => &received[..0],
    }
}
