//! Error correction from CRCs, for packets of up to 512 bytes.
//!
//! A packet ends in a CRC and carries an Internet checksum (RFC 1071) over a part of its bytes, or none ([`NO_CHECKSUM`]). This
//! crate takes [`remainder`]s and [`seal`]s packets, [`sum`]s and [`stamp`]s them, [`make`]s packets from a seed, lists all sets
//! of at most so many bit errors that explain a remainder ([`page`], [`Tables::patterns`]), strikes those that the checksum
//! contradicts, and [`repair`]s a packet where just one is left. It [`simulate`]s a channel, to try settings on. Apart from packets, it
//! [`scatter`]s bytes before storage and [`gather`]s them again.
//!
//! It is a safe wrapper over the C functions of a library whose every function is proved to meet its contract. The
//! wrapper itself is not proved; it judges nothing, and passes every number, length and slice on as it got it. Whatever is
//! unfit comes back as a [`Refusal`], and then nothing that was lent has changed.
//!
//! # Terms
//!
//! - A *generator* is a binary polynomial as a number: 2^i stands for x^i. Its degree n is the exponent of its leading
//!   term. Accepted: odd numbers with n from 3 to 16. Catalogues leave the leading term out. What they write as 1021h is
//!   11021h here: 1021h itself is accepted too, as a generator of degree 12, and seals wrongly without a word.
//!   [`Crc::of_width`] takes a width and a polynomial as catalogues write it.
//! - A packet has L bits, 8 for each byte. They are counted from its end: *position* 0 is the lowest bit of its last byte,
//!   and L - 1 the highest bit of its first. Accepted: n < L ≤ 4,096. The CRC is the last n bits.
//! - The *remainder* or *syndrome* is what is left when the packet, as a binary polynomial with the *initial value* added at
//!   its first n bits and the *final value* at its last n, is divided by the generator. Both are below 2^n, with their highest
//!   bit first; where n < L < 2n they meet in some bits, and both are added there.
//! - A *pattern* is a set of at most four positions: bits that may have flipped. Its *span* is its largest position minus
//!   its smallest, and 0 for one position or none.
//! - The *list* for a generator, L, a limit N and a syndrome has all patterns below L with that syndrome and at most N
//!   positions. Patterns of fewer positions stand first. Those of as many go by their span, the narrower first. Those of
//!   as many and of one span go by their smallest positions, the lower first, then by the next smallest, and so on.
//! - A *range* `start..end` of packet bytes is accepted where start ≤ end and 8 end ≤ L - n. Its *field* is the two bytes that hold the
//!   checksum, named by the first: both in the range, the first an even number of bytes from its start.
//! - The *second check* is by range and field. Where start < end, a packet passes it if its field is 0000h, which says that no checksum
//!   was made (RFC 768), or if the sum of the range is FFFFh. Where start = end, the packet carries no checksum: there is no second
//!   check, a packet passes both where it passes the CRC, and a repair does not look at the field.
//!
//! # Which CRC this is
//!
//! **Not CRC-32, and nothing reflected**: degrees 3 to 16, with the highest bit first. A [`Crc`] is a generator with an initial
//! and a final value: the register starts at the one, and the other is added to it at the end (`init` and `xorout` of the
//! catalogues and of the `crc` crate). [`Crc::plain`] has both values 0: division by the generator alone.
//!
//! [`catalogue`] has those with names, and the other names that they go by. Five share the generator [`CCITT`], and "CRC-CCITT"
//! alone may mean any of them, or one that is reflected:
//!
//! - [`catalogue::CRC_16_XMODEM`] starts at 0 (ZMODEM, ACORN, LTE, V-41-MSB);
//! - [`catalogue::CRC_16_IBM_3740`] starts at FFFFh (CCITT-FALSE, AUTOSAR);
//! - [`catalogue::CRC_16_SPI_FUJITSU`] starts at 1D0Fh (AUG-CCITT);
//! - [`catalogue::CRC_16_GENIBUS`] starts at FFFFh, and all bits are inverted at the end (EPC, I-CODE, DARC);
//! - [`catalogue::CRC_16_GSM`] starts at 0, and all bits are inverted at the end.
//!
//! CRC-16/KERMIT ("CCITT-TRUE") and CRC-16/IBM-SDLC (X.25) have that generator too and are reflected, and so are CRC-16/ARC, which
//! "CRC-16" alone mostly means, and CRC-16/MODBUS: these calls are not for them.
//!
//! Make sure of the CRC that sealed the packets. With the right generator and a wrong value all intact packets of one length
//! leave the same remainder, and where a pattern explains it up to all of them may be repaired, to other data too: of packets
//! of 16 bytes sealed by [`catalogue::CRC_16_CMS`] and taken for [`catalogue::CRC_16_UMTS`] at N = 2, half were. Where no packet
//! is intact, suspect the CRC.
//!
//! A packet is whole bytes, and its message is its first L - n bits. Where n is not a multiple of 8 that is no whole number of
//! bytes. To a message of whole bytes, then, k = 8 - n % 8 zero bits are put in front, and the initial value passed is the
//! one got from its own by k times `init = step[init]`; 0 stays 0.
//!
//! # What a repair does not tell
//!
//! [`Verdict::Repaired`] says that just one set of at most N bit errors leads to a packet that passes both checks. If at most
//! N bits flipped, that is the packet sent. If more did, it may be a wrong packet, and nothing in the verdict shows it.
//!
//! Of packets that are noise at most this part is repaired, on average: the sets of at most N positions among L, divided by
//! 2^n and by 32,768. With [`CCITT`] and 64 bytes that is 1 in 16,000 at N = 2 and 1 in 96 at N = 3; at N = 4 it is above 1 and
//! tells nothing. Packets with a few more flips than N are worse than noise, since they lie close to others that pass: of 64 bytes
//! with four flipped bits 288 of 100,000 were falsely repaired at N = 2. And a greater N repairs less, since several sets pass more
//! often. The example `trials` counts all this. So choose the least N that the channel needs, publish it beside the number
//! of repairs, and hold these for doubtful where many verdicts are [`Verdict::None`].
//!
//! *Drop-outs of zeros* are worse still. Where a recording puts zeros in the place of lost bytes, the field may be among them, and a
//! field of zero asks for no sum: of 40,000 packets of 64 bytes whose last 9 to 60 bytes became zeros, 1,475 were repaired falsely at
//! N = 2 and 311 at N = 1. A packet of zeros alone is even [`Verdict::Intact`] by a CRC whose values are 0, such as CRC-16/XMODEM; an
//! initial value helps there, and not where a part of the packet is left. So prefer a CRC with an initial value, leave packets of
//! zeros out before they come to a repair, and where the sender always stamps, hold a repair that ends in a field of zero for doubtful.
//!
//! # What a limit buys
//!
//! [`simulate`] shows it before the limit is set. It makes packets, flips 0 to 8 bits of each, and counts how many are repaired to the
//! packet made, how many otherwise, and how many not at all. Call it with the CRC, the length, the range and the field that are
//! planned, at each N that comes into question, and compare the rows. The example `simulate` prints them as a table, with a footnote
//! from which anyone can make it again.
//!
//! It is meant for independent flips. Bursts and drop-outs are no such flips, and the rows say nothing of them. Nor do they say how many
//! bits flip in a packet: that is the channel's. Every packet that is tried carries a checksum.
//!
//! The draws are no better than the stream that the packets are made from. Its low bits repeat soon, so the draws are not quite
//! independent. The first draw of a trial may take few of the positions: with 60 bytes and four flips, 15 of 480. And the places of
//! draws 0, 2, 4 and 6 are all even or all odd. Where counts were compared with those of independent draws, they differed by up
//! to 7 per cent.
//!
//! # How long it takes
//!
//! (Measured with version 0.11.0, built by an older Rattle.)
//!
//! Each page and each repair verifies both tables, 0.05 ms for degree 16. Beyond that a repair takes time as L^(N-1): with
//! [`CCITT`] about 0.1 ms at N of 1 and 2; at N = 3 0.3 ms for 64 bytes and 0.03 s for 512; at N = 4 0.03 s for 64 bytes and
//! 30 s for 512. A whole list takes as long, but at N = 2, where it has narrow pairs first: it makes a pass over the packet
//! for each span that some pair has, and takes 1 ms for 512 bytes. Time also grows with the length of the list, about L^N/(N! 2^n): at small degrees and N of 3 or 4 it can take
//! hours. With a generator that has an even number of ones, as [`CCITT`], an even number of flipped bits leaves a
//! remainder with an even number of ones, and an odd number of them one with an odd number, if the packet sent passes
//! the CRC. Numbers of flips that this rules out are not tried. If N is even and the remainder has an odd number of
//! ones, or the other way round, the time is that of N - 1 (at N = 1, of verifying the tables); if not, the list is
//! about twice as long. A call cannot be interrupted, and small pages do not bound its time: a page searches until its
//! next record or the end of the list.
//!
//! A simulation verifies the tables once in a call, however many trials it has: with [`CCITT`], 64 bytes and N = 1 a trial takes half a
//! microsecond. So a call with many trials is cheaper than many calls.
//!
//! Of an intact packet a repair spends nearly all its time on the tables. [`remainder`] and [`sum`] need none, and take 0.2
//! microseconds for 64 bytes and 1.8 for 512. So take them first, and repair only what is damaged: the answer is the same, and a stream
//! with damage in one packet of twenty goes 11 to 21 times as fast.
//!
//! ```
//! use rangqoda::{catalogue::CRC_16_IBM_3740 as CRC, make, remainder, sum, Refusal, Tables, Verdict};
//!
//! /// The verdict on a packet with the checksum of bytes 0 to 61 at byte 60.
//! fn verdict(tables: &Tables, packet: &[u8; 64], copy: &mut [u8; 64]) -> Result<Verdict, Refusal> {
//!     if remainder(CRC, packet)? == 0 && (packet[60..62] == [0, 0] || sum(&packet[..62]) == 0xFFFF) {
//!         return Ok(Verdict::Intact);
//!     }
//!     tables.repair(CRC, 0..62, 60, 2, packet, copy)
//! }
//!
//! let tables = Tables::new(CRC.generator)?;
//! let (mut packet, mut copy, mut seed) = ([0; 64], [0; 64], 7);
//! for number in 0..100 {
//!     seed = make(CRC, seed, 0..62, 60, &mut packet)?;
//!     if number % 20 == 0 {
//!         packet[number / 2] ^= 0x10;
//!     }
//!     let verdict = verdict(&tables, &packet, &mut copy)?;
//!     assert_eq!(verdict, tables.repair(CRC, 0..62, 60, 2, &packet, &mut copy)?);
//!     assert_eq!(verdict == Verdict::Intact, number % 20 != 0);
//! }
//! # Ok::<(), rangqoda::Refusal>(())
//! ```
//!
//! # The archive
//!
//! `rt lib`, in the folder `crates/rangqoda` of the repository, proves the library and makes the archive that this crate links,
//! `out/librangqoda.a` there. A run of the tests takes it away and makes it anew. So keep a copy in a folder of its own, and name
//! that folder by the variable `RANGQODA_LIB_DIR` when this crate is built.
//!
//! # Example
//!
//! ```
//! use rangqoda::{catalogue::CRC_16_IBM_3740 as CRC, hand_back, seal, stamp, Tables, Verdict};
//!
//! // Ten bytes of data, two of checksum at byte 10, two of CRC.
//! let mut sent = *b"channel 07\0\0\0\0";
//! stamp(CRC.generator, 0..12, 10, &mut sent)?;
//! seal(CRC, &mut sent)?;
//!
//! let mut received = sent;
//! received[3] ^= 0x10;
//! received[8] ^= 0x01;
//!
//! let tables = Tables::new(CRC.generator)?;
//! let mut copy = [0; 14];
//! let verdict = tables.repair(CRC, 0..12, 10, 2, &received, &mut copy)?;
//! assert!(matches!(verdict, Verdict::Repaired(pattern) if pattern.as_slice() == [40, 84]));
//! assert_eq!(hand_back(&received, &copy, &verdict), sent);
//! # Ok::<(), rangqoda::Refusal>(())
//! ```

#![warn(missing_docs)]

mod calls;
pub mod catalogue;
mod crc;
#[allow(missing_docs)]
pub mod ffi;
mod pattern;
mod refusal;
mod simulation;
mod tables;

pub use calls::{gather, hand_back, make, remainder, repair, scatter, seal, stamp, sum, NO_CHECKSUM};
pub use crc::{Crc, CCITT, FIVE};
pub use pattern::{Mark, Pattern, Verdict, MARK_BYTES, MOST_POSITIONS, RECORD_BYTES, VERDICT_BYTES};
pub use refusal::Refusal;
pub use simulation::{simulate, Counts, Simulation, MOST_FLIPS};
pub use tables::{build_tables, page, Page, Patterns, TableSlices, Tables, NO_POSITION};

/// The version of this crate, which is that of the header and of the changes for callers: see `CHANGELOG.md`.
pub const VERSION: &str = env!("CARGO_PKG_VERSION");
