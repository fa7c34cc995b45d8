//! Values worked by hand, published elsewhere or computed by other code: the rows of the rules' own table, the traps that they
//! name, the check values of the catalogue of parametrised CRC algorithms, and packets made by `tests/maker_vectors.py`.

mod reference;

use rangqoda::{
    catalogue, gather, hand_back, make, page, remainder, repair, scatter, seal, stamp, sum, Counts, Crc, Mark, Pattern,
    Refusal, TableSlices, Tables, Verdict, CCITT, FIVE, NO_CHECKSUM, NO_POSITION,
};
use std::ops::Range;

/// The list, as slices of positions.
fn list(generator: u64, length: usize, limit: usize, syndrome: u64) -> Vec<Vec<u16>> {
    let tables = Tables::new(generator).unwrap();
    let patterns = tables.patterns(length, limit, syndrome).unwrap();
    patterns.map(|pattern| pattern.as_slice().to_vec()).collect()
}

fn pattern(positions: &[u16]) -> Pattern {
    Pattern::new(positions).unwrap()
}

/// A packet from the digits of its bits. Zero bits put before them change no remainder.
fn bits(digits: &str) -> Vec<u8> {
    let number = u64::from_str_radix(digits, 2).unwrap();
    number.to_be_bytes()[8 - (digits.len() + 7) / 8..].to_vec()
}

// ---- the rules' table

#[test]
fn remainders_of_three_bit_generators() {
    assert_eq!(remainder(Crc::plain(9), &bits("101110000")), Ok(3));
    assert_eq!(remainder(Crc::plain(11), &bits("1100010")), Ok(0));
    assert_eq!(remainder(Crc::plain(11), &bits("1101010")), Ok(3));
}

#[test]
fn a_single_error_of_five_bits() {
    assert_eq!(list(11, 5, 1, 6), [[4]]);
}

#[test]
fn tables_of_five() {
    let tables = Tables::new(FIVE).unwrap();
    let TableSlices { step, first } = tables.as_slices();
    assert_eq!((step.len(), first.len()), (32, 32));
    assert_eq!(tables.period(), 15);
    assert_eq!(step[1], 26);
    assert_eq!(first[26], 14);
    assert_eq!(first[3], NO_POSITION);
    assert_eq!(first[0], NO_POSITION);
    // all single error positions, as the paper on lookup tables prints them (-1 for none)
    let printed = [
        -1, 0, 1, -1, 2, -1, -1, 10, 3, -1, -1, 7, -1, 13, 11, -1, 4, -1, -1, -1, -1, 5, 8, -1, -1, 9, 14, -1, 12, -1,
        -1, 6,
    ];
    let read: Vec<i32> = first.iter().map(|&p| if p == NO_POSITION { -1 } else { i32::from(p) }).collect();
    assert_eq!(read, printed);
}

#[test]
fn lists_of_five() {
    assert_eq!(list(FIVE, 15, 2, 1), [[0]]);
    assert_eq!(list(FIVE, 16, 2, 1), [[0], [15]]);
    assert_eq!(list(FIVE, 7, 2, 3), [[0, 1]]);
    assert_eq!(list(FIVE, 8, 2, 3), [[0, 1], [3, 7]]);
    assert_eq!(list(FIVE, 15, 2, 0), [vec![]]);
    assert_eq!(list(FIVE, 16, 2, 0), [vec![], vec![0, 15]]);
    assert_eq!(list(FIVE, 9, 2, 30), [[5, 7], [3, 8], [0, 6]]);
}

#[test]
fn a_list_after_a_mark_that_is_not_listed() {
    let tables = Tables::new(FIVE).unwrap();
    let mut output = [0xAA; 20];
    let found = tables.page(9, 2, 30, Mark::After(pattern(&[1, 2])), &mut output).unwrap();
    assert_eq!(found.patterns(&output).collect::<Vec<_>>(), [pattern(&[5, 7]), pattern(&[3, 8]), pattern(&[0, 6])]);
    assert_eq!((found.used, found.written, found.next), (15, 3, Mark::Ended));
    assert_eq!(output[..15], [2, 0, 5, 0, 7, 2, 0, 3, 0, 8, 2, 0, 0, 0, 6]);
    assert_eq!(output[15..], [0xAA; 5]);
}

/// Marks before, among and behind the three patterns of that list, with how many of the three do not follow.
#[test]
fn marks_by_count_span_and_positions() {
    let tables = Tables::new(FIVE).unwrap();
    let list = [[5, 7], [3, 8], [0, 6]].map(|positions| pattern(&positions));
    for (mark, passed) in [
        (&[][..], 0),
        (&[8], 0),
        (&[0, 1], 0),
        (&[7, 8], 0),
        (&[4, 6], 0),
        (&[5, 7], 1),
        (&[6, 8], 1),
        (&[0, 3], 1),
        (&[4, 8], 1),
        (&[2, 7], 1),
        (&[3, 8], 2),
        (&[0, 6], 3),
        (&[1, 7], 3),
        (&[0, 8], 3),
    ] {
        let mut output = [0; 20];
        let found = tables.page(9, 2, 30, Mark::After(pattern(mark)), &mut output).unwrap();
        assert_eq!(found.patterns(&output).collect::<Vec<_>>(), list[passed..], "{mark:?}");
    }
}

#[test]
fn a_list_of_thirteen() {
    assert_eq!(list(13, 6, 3, 4), [vec![2], vec![4, 5], vec![0, 3], vec![0, 1, 4], vec![1, 3, 5]]);
}

#[test]
fn the_sum_of_rfc_1071() {
    assert_eq!(sum(&[0x00, 0x01, 0xF2, 0x03, 0xF4, 0xF5, 0xF6, 0xF7]), 0xDDF2);
    assert_eq!(sum(&[]), 0);
    assert_eq!(sum(&[0x12]), 0x1200);
    assert_eq!(sum(&[0xFF, 0xFF, 0x00, 0x01]), 1);
    assert_eq!(sum(&[0xFF; 8]), 0xFFFF);
}

#[test]
fn verdicts_of_five() {
    let tables = Tables::new(FIVE).unwrap();
    let mut output = [0xAA; 3];
    assert_eq!(tables.repair(Crc::plain(FIVE), 0..2, 0, 1, &[0xFF, 0xFF, 0x05], &mut output), Ok(Verdict::Intact));
    assert_eq!(output, [0xAA; 3]);

    assert_eq!(remainder(Crc::plain(FIVE), &[0xFF, 0xFF, 0x06]), Ok(3));
    assert_eq!(tables.repair(Crc::plain(FIVE), 0..2, 0, 1, &[0xFF, 0xFF, 0x06], &mut output), Ok(Verdict::None));
    let several = tables.repair(Crc::plain(FIVE), 0..2, 0, 2, &[0xFF, 0xFF, 0x06], &mut output).unwrap();
    assert_eq!(several, Verdict::Several { count: 2, pattern: pattern(&[0, 1]) });
    assert_eq!(output, [0xAA; 3]);

    let s = remainder(Crc::plain(FIVE), &[0x7F, 0xFF, 0x05]).unwrap();
    assert_eq!(list(FIVE, 24, 1, s), [[8], [23]]);
    let repaired = tables.repair(Crc::plain(FIVE), 0..2, 0, 1, &[0x7F, 0xFF, 0x05], &mut output).unwrap();
    assert_eq!(repaired, Verdict::Repaired(pattern(&[23])));
    assert_eq!(output, [0xFF, 0xFF, 0x05]);
}

/// Several names the first pattern that passes, here neither the first listed nor the one of the lowest positions, {0, 23}.
#[test]
fn verdict_of_nine() {
    let mut output = [0xAA; 3];
    let s = remainder(Crc::plain(9), &[0x7F, 0xFF, 0x02]).unwrap();
    assert_eq!(list(9, 24, 2, s)[0], [2, 3]);
    let tables = Tables::new(9).unwrap();
    let several = tables.repair(Crc::plain(9), 0..2, 0, 2, &[0x7F, 0xFF, 0x02], &mut output).unwrap();
    assert_eq!(several, Verdict::Several { count: 3, pattern: pattern(&[6, 23]) });
    assert_eq!(output, [0xAA; 3]);
}

/// A field of zero passes without a sum, as received or as flipped; and a computed zero is written as FFFFh.
#[test]
fn verdicts_of_five_with_a_zero_field() {
    let tables = Tables::new(FIVE).unwrap();
    let mut output = [0xAA; 3];
    assert_eq!(tables.repair(Crc::plain(FIVE), 0..2, 0, 1, &[0, 0, 0], &mut output), Ok(Verdict::Intact));
    assert_eq!(output, [0xAA; 3]);
    let s = remainder(Crc::plain(FIVE), &[0x80, 0, 0]).unwrap();
    assert_eq!(list(FIVE, 24, 1, s), [[8], [23]]);
    let repaired = tables.repair(Crc::plain(FIVE), 0..2, 0, 1, &[0x80, 0, 0], &mut output);
    assert_eq!(repaired, Ok(Verdict::Repaired(pattern(&[23]))));
    assert_eq!(output, [0, 0, 0]);

    for (field, expected) in [(2, [0xFF, 0xFF, 0xFF, 0xFF, 0]), (0, [0xED, 0xCB, 0x12, 0x34, 0])] {
        let mut packet = [0xFF, 0xFF, 0x12, 0x34, 0];
        assert_eq!(stamp(FIVE, 0..4, field, &mut packet), Ok(()));
        assert_eq!(packet, expected);
        assert_eq!(sum(&packet[..4]), 0xFFFF);
    }
}

/// Packets without a second check, the first of remainder 0 with a sum that is not FFFFh.
#[test]
fn verdicts_of_five_without_a_checksum() {
    let tables = Tables::new(FIVE).unwrap();
    let mut output = [0xAA; 3];
    let mut verdict = |packet: &[u8]| tables.repair(Crc::plain(FIVE), NO_CHECKSUM, 0, 1, packet, &mut output).unwrap();
    assert_eq!(sum(&[0x7F, 0xFE]), 0x7FFE);
    assert_eq!(verdict(&[0x7F, 0xFE, 0x05]), Verdict::Intact);
    assert_eq!(verdict(&[0x7F, 0xFF, 0x05]), Verdict::Several { count: 2, pattern: pattern(&[8]) });
    assert_eq!(verdict(&[0xFF, 0xFF, 0x06]), Verdict::None);
    assert_eq!(verdict(&[0xFF, 0xFD, 0x05]), Verdict::Repaired(pattern(&[9])));
    assert_eq!(output, [0xFF, 0xFF, 0x05]);

    let mut packet = [0xFF, 0xFF, 0x05];
    assert_eq!(stamp(FIVE, 2..2, 2, &mut packet), Err(Refusal::Field));
    assert_eq!(stamp(FIVE, 3..3, 3, &mut packet), Err(Refusal::Range));
    assert_eq!(stamp(FIVE, Range { start: 1, end: 0 }, 0, &mut packet), Err(Refusal::Range));
    assert_eq!(packet, [0xFF, 0xFF, 0x05]);
}

#[test]
fn packets_made_from_seed_0() {
    for (init, crc) in [(0, [0x52, 0x37]), (0xFFFF, [0x5C, 0x27])] {
        let mut packet = [0xAA; 8];
        let state = make(Crc { generator: CCITT, init, xorout: 0 }, 0, 0..6, 4, &mut packet);
        assert_eq!(packet[..6], [0x3C, 0x47, 0xD1, 0xAA, 0xF2, 0x0D]);
        assert_eq!(packet[6..], crc);
        assert_eq!(state, Ok(0xA3D95FA8));
    }
}

/// For the field of these bytes zero is computed, and FFFFh written; and the packet is intact.
#[test]
fn a_packet_made_with_a_computed_zero() {
    let mut packet = [0xAA; 8];
    assert_eq!(make(Crc::plain(CCITT), 65871, 0..6, 4, &mut packet), Ok(0x8D418AD7));
    assert_eq!(packet, [0xC3, 0x06, 0x3C, 0xF9, 0xFF, 0xFF, 0xBE, 0x42]);
    let tables = Tables::new(CCITT).unwrap();
    assert_eq!(tables.repair(Crc::plain(CCITT), 0..6, 4, 1, &packet, &mut [0; 8]), Ok(Verdict::Intact));
}

/// The first states after 0, written out (`docs/DECISIONS.md` says where they are from): from each the later ones follow.
#[test]
fn the_first_states_of_the_stream() {
    let states = [
        0, 0x3C6EF35F, 0x47502932, 0xD1CCF6E9, 0xAAF95334, 0x6252E503, 0x9F2EC686, 0x57FE6C2D, 0xA3D95FA8, 0x81FDBEE7,
        0x94F0AF1A, 0xCBF633B1,
    ];
    for from in 0..states.len() {
        // a packet of less than three bytes has no room for a field
        for to in from + 3..states.len() {
            let mut packet = vec![0; to - from];
            assert_eq!(make(Crc::plain(9), states[from], 0..2, 0, &mut packet), Ok(states[to]));
        }
    }
}

/// The 32-bit FNV-1a hash.
fn hash(bytes: &[u8]) -> u32 {
    bytes.iter().fold(2166136261, |hash, &byte| (hash ^ u32::from(byte)).wrapping_mul(16777619))
}

/// Hashes and states that `tests/maker_vectors.py` prints: 512 bytes with the field at the range's end, and 16 with an odd range.
#[test]
fn whole_packets_by_their_hashes() {
    let small = Crc { generator: FIVE, init: 31, xorout: 9 };
    #[rustfmt::skip]
    let packets = [
        (catalogue::CRC_16_XMODEM, 0, 0xFB572C93, 0x94B8C296),
        (catalogue::CRC_16_XMODEM, 1, 0xF4EF8BD6, 0xF23A094D),
        (catalogue::CRC_16_XMODEM, u32::MAX, 0x7858FC9A, 0x339E124C),
        (catalogue::CRC_16_IBM_3740, 0, 0xC100C0CE, 0xBBB7CA29),
        (catalogue::CRC_16_IBM_3740, 1, 0x7F46758B, 0x24BEBDEA),
        (catalogue::CRC_16_IBM_3740, u32::MAX, 0xCC01DD5F, 0x1E29F8BF),
        (catalogue::CRC_16_GENIBUS, 0, 0xBF8897F8, 0x063DAD53),
        (catalogue::CRC_16_GENIBUS, 1, 0xBDA6C961, 0x59FB0E74),
        (catalogue::CRC_16_GENIBUS, u32::MAX, 0xB1AD2835, 0xC3E78DE9),
        (small, 0, 0x0AFD63B5, 0x7DA24DD7),
        (small, 1, 0xBA3F0DE2, 0x923E7996),
        (small, u32::MAX, 0x6B288129, 0x75AC7BF7),
    ];
    for (crc, seed, long, short) in packets {
        let (after_512, after_16) = match seed {
            0 => (0x5E794A00, 0x83C6B450),
            1 => (0xA938D201, 0xFB18B891),
            _ => (0x13B9C1FF, 0x0C74B00F),
        };
        let mut packet = [0; 512];
        assert_eq!(make(crc, seed, 0..510, 508, &mut packet), Ok(after_512), "{crc:?} {seed}");
        assert_eq!(hash(&packet), long, "{crc:?} {seed}");
        let mut packet = [0; 16];
        assert_eq!(make(crc, seed, 3..12, 5, &mut packet), Ok(after_16), "{crc:?} {seed}");
        assert_eq!(hash(&packet), short, "{crc:?} {seed}");
    }
}

/// A simulation as it is told in a footnote, and what it left: rows, state, packet and output.
struct Simulated<'a> {
    crc: Crc,
    seed: u32,
    range: Range<usize>,
    field: usize,
    limit: usize,
    trials: u64,
    rows: [[u32; 5]; 9],
    state: u32,
    packet: &'a [u8],
    output: &'a [u8],
}

/// Counted by a program apart from this one, which tries every set of positions: one trial of each, so that a draw in the wrong row or
/// place shows; then many.
#[test]
fn simulations_written_out() {
    let (small, three) = (Crc { generator: FIVE, init: 31, xorout: 9 }, Crc::plain(9));
    let none = [0, 0, 0, 0, 100];
    for of in [
        Simulated {
            crc: Crc::plain(FIVE),
            seed: 0,
            range: 0..2,
            field: 0,
            limit: 1,
            trials: 1,
            rows: [
                [1, 0, 0, 0, 0],
                [0, 1, 0, 0, 0],
                [0, 0, 0, 0, 1],
                [0, 0, 0, 0, 1],
                [0, 0, 0, 0, 1],
                [0, 0, 0, 0, 1],
                [0, 0, 0, 0, 1],
                [0, 0, 0, 0, 1],
                [0, 0, 0, 0, 1],
            ],
            state: 0x25D2EE25,
            packet: &[0xAD, 0xDD, 0x64],
            output: &[0xFF, 0xFF, 0x8E],
        },
        Simulated {
            crc: small,
            seed: 7,
            range: 0..2,
            field: 0,
            limit: 2,
            trials: 100,
            rows: [
                [100, 0, 0, 0, 0],
                [0, 100, 0, 0, 0],
                [0, 94, 0, 6, 0],
                none,
                [0, 0, 5, 0, 95],
                none,
                [0, 0, 2, 0, 98],
                none,
                none,
            ],
            state: 0x2EE46AC3,
            packet: &[0x93, 0x7F, 0xC6],
            output: &[0xFF, 0xFF, 0xEA],
        },
        Simulated {
            crc: three,
            seed: u32::MAX,
            range: 0..2,
            field: 0,
            limit: 2,
            trials: 100,
            rows: [
                [100, 0, 0, 0, 0],
                [0, 62, 0, 38, 0],
                [1, 46, 0, 53, 0],
                [0, 0, 6, 2, 92],
                [0, 0, 5, 5, 90],
                none,
                none,
                none,
                none,
            ],
            state: 0xFC4B0B3B,
            packet: &[0xE7, 0xCC, 0x06],
            output: &[0xFF, 0xFF, 0x81],
        },
        Simulated {
            crc: catalogue::CRC_8_I_432_1,
            seed: 0,
            range: 1..6,
            field: 3,
            limit: 3,
            trials: 40,
            rows: [
                [40, 0, 0, 0, 0],
                [0, 5, 0, 35, 0],
                [0, 30, 0, 10, 0],
                [0, 17, 0, 23, 0],
                [0, 0, 5, 1, 34],
                [0, 0, 7, 7, 26],
                [0, 0, 2, 2, 36],
                [0, 0, 2, 4, 34],
                [0, 0, 0, 0, 40],
            ],
            state: 0x53A40860,
            packet: &[0x3C, 0xEA, 0x9A, 0x8F, 0x6D, 0x10, 0xEC, 0x83],
            output: &[0xFF, 0xD0, 0x34, 0x13, 0xCB, 0x1C, 0xB3, 0x4B],
        },
        Simulated {
            crc: catalogue::CRC_16_IBM_3740,
            seed: 1,
            range: 0..14,
            field: 12,
            limit: 2,
            trials: 1000,
            rows: [
                [1000, 0, 0, 0, 0],
                [0, 1000, 0, 0, 0],
                [0, 1000, 0, 0, 0],
                [0, 0, 0, 0, 1000],
                [0, 0, 1, 0, 999],
                [0, 0, 0, 0, 1000],
                [0, 0, 0, 0, 1000],
                [0, 0, 0, 0, 1000],
                [0, 0, 0, 0, 1000],
            ],
            state: 0x4B4FAC21,
            packet: b"\x32\x92\xC8\xB1\xCA\xC2\x0B\x67\x6F\x3C\xE4\x0B\xEB\x09\xCA\x67",
            output: b"\xBF\x27\x63\x92\x7F\x31\x58\x36\xFE\x22\x46\xDD\xC0\xDD\x97\x11",
        },
    ] {
        let tables = Tables::new(of.crc.generator).unwrap();
        let (mut packet, mut output) = (vec![0xAA; of.packet.len()], vec![0xAA; of.packet.len()]);
        let tried = tables
            .simulate(of.crc, of.seed, of.range, of.field, of.limit, of.trials, &mut packet, &mut output)
            .unwrap();
        let rows = of.rows.map(|[intact, repaired_to_made, repaired_otherwise, several, none]| Counts {
            intact,
            repaired_to_made,
            repaired_otherwise,
            several,
            none,
        });
        assert_eq!(tried.rows, rows, "{:?} {}", of.crc, of.seed);
        assert_eq!((tried.state, &packet[..], &output[..]), (of.state, of.packet, of.output));
    }
}

#[test]
fn what_is_handed_back() {
    let (received, copy) = ([1, 2, 3], [4, 5, 6]);
    assert!(std::ptr::eq(hand_back(&received, &copy, &Verdict::Intact), &received[..]));
    assert!(std::ptr::eq(hand_back(&received, &copy, &Verdict::Repaired(pattern(&[0]))), &copy[..]));
    for verdict in [Verdict::None, Verdict::Several { count: 2, pattern: pattern(&[0, 1]) }] {
        let handed = hand_back(&received, &copy, &verdict);
        assert!(handed.is_empty() && received.as_ptr_range().contains(&handed.as_ptr()));
    }
}

#[test]
fn the_small_inputs_of_the_refusals() {
    let tables = Tables::new(FIVE).unwrap();
    let mut output = [0; 16];
    for generator in [8, 7, 131073] {
        assert_eq!(remainder(Crc::plain(generator), &[0; 8]), Err(Refusal::Generator));
    }
    assert_eq!(tables.page(5, 1, 0, Mark::Start, &mut output), Err(Refusal::Length));
    assert_eq!(tables.page(8, 5, 0, Mark::Start, &mut output), Err(Refusal::Limit));
    assert_eq!(tables.page(8, 1, 32, Mark::Start, &mut output), Err(Refusal::Syndrome));
    assert_eq!(rangqoda::build_tables(FIVE, &mut [0; 31], &mut [0; 32]), Err(Refusal::TableLength));
    let TableSlices { step, first } = tables.as_slices();
    let mut wrong = step.to_vec();
    wrong[1] = 0;
    let lent = TableSlices { step: &wrong, first };
    assert_eq!(page(FIVE, 8, 1, 0, lent, Mark::Start, &mut output), Err(Refusal::TableEntry));
    assert_eq!(repair(Crc::plain(FIVE), 0..2, 0, 1, lent, &[0; 3], &mut output[..3]), Err(Refusal::TableEntry));
    assert_eq!(tables.page(8, 2, 0, Mark::After(pattern(&[3, 3])), &mut output), Err(Refusal::Mark));
    assert_eq!(tables.page(8, 2, 0, Mark::Start, &mut output[..8]), Err(Refusal::Output));
    assert_eq!(stamp(CCITT, 0..3, 0, &mut [0; 4]), Err(Refusal::Range));
    assert_eq!(stamp(CCITT, 0..4, 1, &mut [0; 8]), Err(Refusal::Field));
    assert_eq!(remainder(Crc { generator: FIVE, init: 32, xorout: 0 }, &[0]), Err(Refusal::Values));
    assert_eq!(seal(Crc { generator: FIVE, init: 0, xorout: 32 }, &mut [0]), Err(Refusal::Values));
    for (rows, columns) in [(65, 1), (1, 65), (0, 1), (1, 0)] {
        assert_eq!(scatter(rows, columns, &[0; 65], &mut [0; 65]), Err(Refusal::BlockShape));
        assert_eq!(gather(rows, columns, &[0; 65], &mut [0; 65]), Err(Refusal::BlockShape));
    }
    assert_eq!(scatter(2, 3, &[0; 5], &mut [0; 6]), Err(Refusal::BlockLength));
    assert_eq!(gather(2, 3, &[0; 6], &mut [0; 5]), Err(Refusal::BlockLength));
    for trials in [0, 65_536] {
        let simulated = tables.simulate(Crc::plain(FIVE), 0, 0..2, 0, 1, trials, &mut [0; 3], &mut [0; 3]);
        assert_eq!(simulated, Err(Refusal::Trials));
    }
    let simulated = tables.simulate(Crc::plain(FIVE), 0, 2..2, 2, 1, 0, &mut [0; 3], &mut [0; 3]);
    assert_eq!(simulated, Err(Refusal::Field));
}

#[test]
fn six_bytes_in_two_rows() {
    let mut stored = [0; 6];
    assert_eq!(scatter(2, 3, b"abcdef", &mut stored), Ok(()));
    assert_eq!(stored, *b"adbecf");
    let mut restored = [0; 6];
    assert_eq!(gather(2, 3, &stored, &mut restored), Ok(()));
    assert_eq!(restored, *b"abcdef");
    // rows and columns exchanged give other bytes, each way
    assert_eq!(scatter(3, 2, b"abcdef", &mut stored), Ok(()));
    assert_eq!(stored, *b"acebdf");
    assert_eq!(gather(3, 2, b"acebdf", &mut restored), Ok(()));
    assert_eq!(restored, *b"abcdef");
}

// ---- the traps

#[test]
fn positions_a_period_later_are_not_lost() {
    assert_eq!(list(FIVE, 50, 1, 1), [[0], [15], [30], [45]]);
    assert!(list(FIVE, 16, 2, 1).contains(&vec![15]));
    assert!(list(FIVE, 24, 1, remainder(Crc::plain(FIVE), &[0x7F, 0xFF, 0x05]).unwrap()).contains(&vec![23]));
}

#[test]
fn positions_are_counted_from_the_right() {
    // in five bits with one error the syndrome 6 is the leftmost bit's, position 4
    assert_eq!(remainder(Crc::plain(11), &[0b10000]), Ok(6));
    assert_eq!(list(11, 5, 1, 6), [[4]]);
    assert_eq!(remainder(Crc::plain(FIVE), &[0, 0, 1]), Ok(1));
    assert_eq!(list(FIVE, 15, 1, 1), [[0]]);
}

#[test]
fn no_pair_comes_twice_and_none_has_a_position_twice() {
    for (generator, length, limit) in [(FIVE, 40, 2), (FIVE, 33, 3), (9, 20, 4), (CCITT, 400, 2)] {
        for syndrome in 0..8 {
            let found = list(generator, length, limit, syndrome);
            assert!(found.iter().all(|pattern| pattern.windows(2).all(|pair| pair[0] < pair[1])));
            assert!(found.windows(2).all(|two| reference::order(&two[0], &two[1]).is_lt()));
        }
    }
}

#[test]
fn parity_is_not_taken_for_granted() {
    // 11 has three ones: one list holds patterns of one and of two positions
    assert_eq!(list(11, 7, 2, 6), [vec![4], vec![1, 2], vec![3, 6], vec![0, 5]]);
}

#[test]
fn remainder_0_has_more_than_the_empty_pattern() {
    let found = list(FIVE, 20, 4, 0);
    assert_eq!(found[0], []);
    assert!(found.contains(&vec![0, 15]) && found.contains(&vec![0, 2, 4, 5]));
    // a packet of remainder 0 whose checksum fails is repaired
    let tables = Tables::new(FIVE).unwrap();
    let mut sent = [0xFF, 0xFF, 0x05];
    for position in [8, 23] {
        sent[2 - position / 8] ^= 1 << (position % 8);
    }
    assert_eq!(remainder(Crc::plain(FIVE), &sent), Ok(0));
    let mut output = [0; 3];
    let verdict = tables.repair(Crc::plain(FIVE), 0..2, 0, 2, &sent, &mut output).unwrap();
    assert_eq!((verdict, output), (Verdict::Repaired(pattern(&[8, 23])), [0xFF, 0xFF, 0x05]));
}

// ---- published check values

/// The catalogue's algorithms to degree 16: name, width, polynomial without the top bit, initial value, input reflected,
/// output reflected, final value, and the CRC of the nine bytes "123456789".
type Published = (&'static str, u32, u64, u64, bool, bool, u64, u64);

#[rustfmt::skip]
const CATALOGUE: [Published; 78] = [
    ("CRC-3/GSM", 3, 0x3, 0x0, false, false, 0x7, 0x4),
    ("CRC-3/ROHC", 3, 0x3, 0x7, true, true, 0x0, 0x6),
    ("CRC-4/G-704", 4, 0x3, 0x0, true, true, 0x0, 0x7),
    ("CRC-4/INTERLAKEN", 4, 0x3, 0xF, false, false, 0xF, 0xB),
    ("CRC-5/EPC-C1G2", 5, 0x9, 0x9, false, false, 0x0, 0x0),
    ("CRC-5/G-704", 5, 0x15, 0x0, true, true, 0x0, 0x7),
    ("CRC-5/USB", 5, 0x5, 0x1F, true, true, 0x1F, 0x19),
    ("CRC-6/CDMA2000-A", 6, 0x27, 0x3F, false, false, 0x0, 0xD),
    ("CRC-6/CDMA2000-B", 6, 0x7, 0x3F, false, false, 0x0, 0x3B),
    ("CRC-6/DARC", 6, 0x19, 0x0, true, true, 0x0, 0x26),
    ("CRC-6/G-704", 6, 0x3, 0x0, true, true, 0x0, 0x6),
    ("CRC-6/GSM", 6, 0x2F, 0x0, false, false, 0x3F, 0x13),
    ("CRC-7/MMC", 7, 0x9, 0x0, false, false, 0x0, 0x75),
    ("CRC-7/ROHC", 7, 0x4F, 0x7F, true, true, 0x0, 0x53),
    ("CRC-7/UMTS", 7, 0x45, 0x0, false, false, 0x0, 0x61),
    ("CRC-8/AUTOSAR", 8, 0x2F, 0xFF, false, false, 0xFF, 0xDF),
    ("CRC-8/BLUETOOTH", 8, 0xA7, 0x0, true, true, 0x0, 0x26),
    ("CRC-8/CDMA2000", 8, 0x9B, 0xFF, false, false, 0x0, 0xDA),
    ("CRC-8/DARC", 8, 0x39, 0x0, true, true, 0x0, 0x15),
    ("CRC-8/DVB-S2", 8, 0xD5, 0x0, false, false, 0x0, 0xBC),
    ("CRC-8/GSM-A", 8, 0x1D, 0x0, false, false, 0x0, 0x37),
    ("CRC-8/GSM-B", 8, 0x49, 0x0, false, false, 0xFF, 0x94),
    ("CRC-8/I-432-1", 8, 0x7, 0x0, false, false, 0x55, 0xA1),
    ("CRC-8/I-CODE", 8, 0x1D, 0xFD, false, false, 0x0, 0x7E),
    ("CRC-8/LTE", 8, 0x9B, 0x0, false, false, 0x0, 0xEA),
    ("CRC-8/MAXIM-DOW", 8, 0x31, 0x0, true, true, 0x0, 0xA1),
    ("CRC-8/MIFARE-MAD", 8, 0x1D, 0xC7, false, false, 0x0, 0x99),
    ("CRC-8/NRSC-5", 8, 0x31, 0xFF, false, false, 0x0, 0xF7),
    ("CRC-8/OPENSAFETY", 8, 0x2F, 0x0, false, false, 0x0, 0x3E),
    ("CRC-8/ROHC", 8, 0x7, 0xFF, true, true, 0x0, 0xD0),
    ("CRC-8/SAE-J1850", 8, 0x1D, 0xFF, false, false, 0xFF, 0x4B),
    ("CRC-8/SMBUS", 8, 0x7, 0x0, false, false, 0x0, 0xF4),
    ("CRC-8/TECH-3250", 8, 0x1D, 0xFF, true, true, 0x0, 0x97),
    ("CRC-8/WCDMA", 8, 0x9B, 0x0, true, true, 0x0, 0x25),
    ("CRC-10/ATM", 10, 0x233, 0x0, false, false, 0x0, 0x199),
    ("CRC-10/CDMA2000", 10, 0x3D9, 0x3FF, false, false, 0x0, 0x233),
    ("CRC-10/GSM", 10, 0x175, 0x0, false, false, 0x3FF, 0x12A),
    ("CRC-11/FLEXRAY", 11, 0x385, 0x1A, false, false, 0x0, 0x5A3),
    ("CRC-11/UMTS", 11, 0x307, 0x0, false, false, 0x0, 0x61),
    ("CRC-12/CDMA2000", 12, 0xF13, 0xFFF, false, false, 0x0, 0xD4D),
    ("CRC-12/DECT", 12, 0x80F, 0x0, false, false, 0x0, 0xF5B),
    ("CRC-12/GSM", 12, 0xD31, 0x0, false, false, 0xFFF, 0xB34),
    ("CRC-12/UMTS", 12, 0x80F, 0x0, false, true, 0x0, 0xDAF),
    ("CRC-13/BBC", 13, 0x1CF5, 0x0, false, false, 0x0, 0x4FA),
    ("CRC-14/DARC", 14, 0x805, 0x0, true, true, 0x0, 0x82D),
    ("CRC-14/GSM", 14, 0x202D, 0x0, false, false, 0x3FFF, 0x30AE),
    ("CRC-15/CAN", 15, 0x4599, 0x0, false, false, 0x0, 0x59E),
    ("CRC-15/MPT1327", 15, 0x6815, 0x0, false, false, 0x1, 0x2566),
    ("CRC-16/ARC", 16, 0x8005, 0x0, true, true, 0x0, 0xBB3D),
    ("CRC-16/CDMA2000", 16, 0xC867, 0xFFFF, false, false, 0x0, 0x4C06),
    ("CRC-16/CMS", 16, 0x8005, 0xFFFF, false, false, 0x0, 0xAEE7),
    ("CRC-16/DDS-110", 16, 0x8005, 0x800D, false, false, 0x0, 0x9ECF),
    ("CRC-16/DECT-R", 16, 0x589, 0x0, false, false, 0x1, 0x7E),
    ("CRC-16/DECT-X", 16, 0x589, 0x0, false, false, 0x0, 0x7F),
    ("CRC-16/DNP", 16, 0x3D65, 0x0, true, true, 0xFFFF, 0xEA82),
    ("CRC-16/EN-13757", 16, 0x3D65, 0x0, false, false, 0xFFFF, 0xC2B7),
    ("CRC-16/GENIBUS", 16, 0x1021, 0xFFFF, false, false, 0xFFFF, 0xD64E),
    ("CRC-16/GSM", 16, 0x1021, 0x0, false, false, 0xFFFF, 0xCE3C),
    ("CRC-16/IBM-3740", 16, 0x1021, 0xFFFF, false, false, 0x0, 0x29B1),
    ("CRC-16/IBM-SDLC", 16, 0x1021, 0xFFFF, true, true, 0xFFFF, 0x906E),
    ("CRC-16/ISO-IEC-14443-3-A", 16, 0x1021, 0xC6C6, true, true, 0x0, 0xBF05),
    ("CRC-16/KERMIT", 16, 0x1021, 0x0, true, true, 0x0, 0x2189),
    ("CRC-16/LJ1200", 16, 0x6F63, 0x0, false, false, 0x0, 0xBDF4),
    ("CRC-16/MAXIM-DOW", 16, 0x8005, 0x0, true, true, 0xFFFF, 0x44C2),
    ("CRC-16/MCRF4XX", 16, 0x1021, 0xFFFF, true, true, 0x0, 0x6F91),
    ("CRC-16/MODBUS", 16, 0x8005, 0xFFFF, true, true, 0x0, 0x4B37),
    ("CRC-16/NRSC-5", 16, 0x80B, 0xFFFF, true, true, 0x0, 0xA066),
    ("CRC-16/OPENSAFETY-A", 16, 0x5935, 0x0, false, false, 0x0, 0x5D38),
    ("CRC-16/OPENSAFETY-B", 16, 0x755B, 0x0, false, false, 0x0, 0x20FE),
    ("CRC-16/PROFIBUS", 16, 0x1DCF, 0xFFFF, false, false, 0xFFFF, 0xA819),
    ("CRC-16/RIELLO", 16, 0x1021, 0xB2AA, true, true, 0x0, 0x63D0),
    ("CRC-16/SPI-FUJITSU", 16, 0x1021, 0x1D0F, false, false, 0x0, 0xE5CC),
    ("CRC-16/T10-DIF", 16, 0x8BB7, 0x0, false, false, 0x0, 0xD0DB),
    ("CRC-16/TELEDISK", 16, 0xA097, 0x0, false, false, 0x0, 0xFB3),
    ("CRC-16/TMS37157", 16, 0x1021, 0x89EC, true, true, 0x0, 0x26B1),
    ("CRC-16/UMTS", 16, 0x8005, 0x0, false, false, 0x0, 0xFEE8),
    ("CRC-16/USB", 16, 0x8005, 0xFFFF, true, true, 0xFFFF, 0xB4C8),
    ("CRC-16/XMODEM", 16, 0x1021, 0x0, false, false, 0x0, 0x31C3),
];

/// What has to be multiplied by x so many times to leave the value.
fn undone(value: u64, times: u32, generator: u64) -> u64 {
    (0..times).fold(value, |value, _| if value & 1 == 1 { (value ^ generator) >> 1 } else { value >> 1 })
}

/// The message and as many zero bits as the degree, filled up to whole bytes by zeros in front, and the CRC for it: these zeros
/// move the initial value up by as many places, which is undone beforehand.
fn framed(width: u32, poly: u64, init: u64, refin: bool, xorout: u64) -> (Crc, Vec<u8>) {
    let mut message = 0u128;
    for &byte in b"123456789" {
        message = message << 8 | u128::from(if refin { byte.reverse_bits() } else { byte });
    }
    let len = (72 + width as usize + 7) / 8;
    let packet = (message << width).to_be_bytes()[16 - len..].to_vec();
    let generator = 1 << width | poly;
    (Crc { generator, init: undone(init, 8 * len as u32 - 72 - width, generator), xorout }, packet)
}

fn mirrored(value: u64, width: u32) -> u64 {
    value.reverse_bits() >> (64 - width)
}

#[test]
fn published_check_values() {
    for (name, width, poly, init, refin, refout, xorout, check) in CATALOGUE {
        let (xorout, check) = if refout { (mirrored(xorout, width), mirrored(check, width)) } else { (xorout, check) };
        let (crc, mut packet) = framed(width, poly, init, refin, xorout);
        assert_eq!(remainder(crc, &packet), Ok(check), "{name}");
        let before = packet.clone();
        seal(crc, &mut packet).unwrap();
        let last = packet.len() - 2;
        let bits = |packet: &[u8]| u64::from(packet[last]) << 8 | u64::from(packet[last + 1]);
        assert_eq!((&packet[..last], bits(&packet) ^ bits(&before)), (&before[..last], check), "{name}");
        assert_eq!(remainder(crc, &packet), Ok(0), "{name}");
    }
}

#[test]
fn the_names_stand_for_the_catalogues_crcs() {
    let mut covered = CATALOGUE.iter().filter(|row| !row.4 && !row.5);
    for (name, crc) in catalogue::ALL {
        let &(called, width, poly, init, _, _, xorout, _) = covered.next().unwrap();
        assert_eq!((*name, *crc), (called, Crc { generator: 1 << width | poly, init, xorout }));
    }
    assert_eq!(covered.next(), None);
}

/// The catalogue's other names, with the names above that they stand for.
const OTHER_NAMES: [(&str, &str); 25] = [
    ("CRC-5/EPC", "CRC-5/EPC-C1G2"),
    ("CRC-7", "CRC-7/MMC"),
    ("CRC-8", "CRC-8/SMBUS"),
    ("CRC-8/ITU", "CRC-8/I-432-1"),
    ("CRC-10", "CRC-10/ATM"),
    ("CRC-10/I-610", "CRC-10/ATM"),
    ("CRC-11", "CRC-11/FLEXRAY"),
    ("X-CRC-12", "CRC-12/DECT"),
    ("CRC-15", "CRC-15/CAN"),
    ("R-CRC-16", "CRC-16/DECT-R"),
    ("X-CRC-16", "CRC-16/DECT-X"),
    ("CRC-16/DARC", "CRC-16/GENIBUS"),
    ("CRC-16/EPC", "CRC-16/GENIBUS"),
    ("CRC-16/EPC-C1G2", "CRC-16/GENIBUS"),
    ("CRC-16/I-CODE", "CRC-16/GENIBUS"),
    ("CRC-16/AUTOSAR", "CRC-16/IBM-3740"),
    ("CRC-16/CCITT-FALSE", "CRC-16/IBM-3740"),
    ("CRC-16/IEC-61158-2", "CRC-16/PROFIBUS"),
    ("CRC-16/AUG-CCITT", "CRC-16/SPI-FUJITSU"),
    ("CRC-16/BUYPASS", "CRC-16/UMTS"),
    ("CRC-16/VERIFONE", "CRC-16/UMTS"),
    ("CRC-16/ACORN", "CRC-16/XMODEM"),
    ("CRC-16/LTE", "CRC-16/XMODEM"),
    ("CRC-16/V-41-MSB", "CRC-16/XMODEM"),
    ("ZMODEM", "CRC-16/XMODEM"),
];

#[test]
fn the_other_names_stand_for_the_same_crcs() {
    let expected = OTHER_NAMES.map(|(other, name)| {
        let &(_, crc) = catalogue::ALL.iter().find(|(called, _)| *called == name).unwrap();
        (other, crc)
    });
    assert_eq!(catalogue::ALIASES, expected);
    assert_eq!(catalogue::CRC_16_CCITT_FALSE, Crc { generator: CCITT, init: 0xFFFF, xorout: 0 });
    assert_eq!(catalogue::CRC_16_AUG_CCITT, Crc { generator: CCITT, init: 0x1D0F, xorout: 0 });
}

/// Every name, as it is written and in small letters; and none that is not there.
#[test]
fn crcs_by_name() {
    for (name, crc) in catalogue::ALL.iter().chain(catalogue::ALIASES) {
        assert_eq!(catalogue::by_name(name), Some(*crc), "{name}");
        assert_eq!(catalogue::by_name(&name.to_lowercase()), Some(*crc), "{name}");
        assert_eq!(catalogue::by_name(&format!("{name} ")), None, "{name}");
    }
    for (name, ..) in CATALOGUE.iter().filter(|row| row.4 || row.5) {
        assert_eq!(catalogue::by_name(name), None, "{name}");
    }
    for name in ["", "CRC", "CRC-16", "CRC_16_XMODEM", "XMODEM"] {
        assert_eq!(catalogue::by_name(name), None, "{name}");
    }
}

/// Every row of the catalogue by its width and its polynomial without the top bit, and each number at the edge of what fits.
#[test]
fn crcs_by_width_and_polynomial() {
    for (name, width, poly, init, _, _, xorout, _) in CATALOGUE {
        let crc = Crc { generator: 1 << width | poly, init, xorout };
        assert_eq!(Crc::of_width(width, poly, init, xorout), Some(crc), "{name}");
        assert_eq!(Crc::of_width(width, crc.generator, init, xorout), None, "{name}");
    }
    for width in (0..70).chain([u32::MAX]) {
        let fits = (3..=16).contains(&width);
        assert_eq!(Crc::of_width(width, 1, 0, 0).is_some(), fits, "{width}");
        if fits {
            let most = (1 << width) - 1;
            let crc = Crc { generator: most << 1 | 1, init: most, xorout: most };
            assert_eq!(Crc::of_width(width, most, most, most), Some(crc));
            assert_eq!(Crc::of_width(width, most - 1, 0, 0), None, "even");
            for wide in [most + 1, most + 2, 1 << 32 | 1, u64::MAX] {
                assert_eq!(Crc::of_width(width, wide, 0, 0), None);
                assert_eq!(Crc::of_width(width, 1, wide, 0), None);
                assert_eq!(Crc::of_width(width, 1, 0, wide), None);
            }
        }
    }
}

/// What the constructor refuses to do: a polynomial without its top bit is accepted as a generator, and is another one.
#[test]
fn a_polynomial_without_its_top_bit_is_another_generator() {
    for (polynomial, degree) in [(0x1021, 12), (0x8005, 15)] {
        let right = Crc::of_width(16, polynomial, 0, 0).unwrap();
        let mut packets = [*b"123456789\0\0"; 2];
        seal(right, &mut packets[0]).unwrap();
        seal(Crc::plain(polynomial), &mut packets[1]).unwrap();
        assert_ne!(packets[0], packets[1]);
        assert_eq!(Tables::new(polynomial).unwrap().as_slices().step.len(), 1 << degree);
    }
}

#[test]
fn sealing_appends_a_published_check_value() {
    for (crc, check) in [
        (catalogue::CRC_16_XMODEM, [0x31, 0xC3]),
        (catalogue::CRC_16_IBM_3740, [0x29, 0xB1]),
        (catalogue::CRC_16_GENIBUS, [0xD6, 0x4E]),
        (catalogue::CRC_16_SPI_FUJITSU, [0xE5, 0xCC]),
    ] {
        let mut packet = *b"123456789\0\0";
        seal(crc, &mut packet).unwrap();
        assert_eq!(packet[9..], check);
        assert_eq!(remainder(crc, &packet), Ok(0));
    }
}

#[test]
fn values_over_the_same_bits() {
    for (init, xorout, left) in [(31, 0, 25), (0, 31, 31), (31, 31, 6)] {
        assert_eq!(remainder(Crc { generator: FIVE, init, xorout }, &[0]), Ok(left));
    }
}
