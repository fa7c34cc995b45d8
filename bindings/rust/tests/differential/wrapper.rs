//! The safe wrapper: it says what the library says.

use crate::common::{Random, UNFIT_GENERATORS};
use crate::inputs::{some_received, some_settings};
use crate::reference::{self, Verdict, MOST_POSITIONS, RECORD_BYTES};
use rangqoda::Crc;

#[test]
fn the_wrapper_says_what_the_library_says() {
    let mut random = Random::new(18);
    for _ in 0..150 {
        let settings = some_settings(&mut random, 60_000);
        let tables = rangqoda::Tables::new(settings.generator).unwrap();
        assert_eq!(tables.generator(), settings.generator);
        assert_eq!(tables.period(), settings.tables.period);
        assert_eq!(tables.as_slices().step, settings.tables.step);
        assert_eq!(tables.as_slices().first, settings.tables.first);
        let list = reference::list(settings.generator, settings.length, settings.limit, settings.syndrome);
        let found: Vec<Vec<u16>> = tables
            .patterns(settings.length, settings.limit, settings.syndrome)
            .unwrap()
            .map(|pattern| pattern.as_slice().to_vec())
            .collect();
        assert_eq!(found, *list);
        assert!(tables
            .patterns(settings.length, settings.limit, settings.syndrome)
            .unwrap()
            .zip(tables.patterns(settings.length, settings.limit, settings.syndrome).unwrap().skip(1))
            .all(|(a, b)| a < b));

        let mut output = vec![0; 40];
        let page = tables
            .page(settings.length, settings.limit, settings.syndrome, rangqoda::Mark::Start, &mut output)
            .unwrap();
        let first: Vec<Vec<u16>> = page.patterns(&output).map(|pattern| pattern.as_slice().to_vec()).collect();
        assert_eq!(first.len() as u64, page.written);
        assert_eq!(first, list[..first.len()]);
    }
}

#[test]
fn the_wrapper_repairs_and_hands_back() {
    let mut random = Random::new(19);
    let mut seen = [0; 4];
    for _ in 0..1_000 {
        let received = some_received(&mut random, 20_000);
        let tables = rangqoda::Tables::new(received.crc.generator).unwrap();
        let range = received.start..received.end;
        let mut copy = vec![0xEE; received.packet.len()];
        let verdict =
            tables.repair(received.crc, range, received.field, received.limit, &received.packet, &mut copy).unwrap();
        let handed = rangqoda::hand_back(&received.packet, &copy, &verdict);
        let of = reference::RepairOf {
            crc: received.crc,
            start: received.start,
            end: received.end,
            field: received.field,
            limit: received.limit,
            step: tables.as_slices().step,
            first: tables.as_slices().first,
            packet: &received.packet,
        };
        let mut expected_copy = vec![0xEE; received.packet.len()];
        let expected = reference::repair(&of, &mut expected_copy).unwrap();
        assert_eq!(copy, expected_copy);
        match (verdict, expected) {
            (rangqoda::Verdict::Intact, Verdict::Intact) => {
                seen[0] += 1;
                assert!(std::ptr::eq(handed, &received.packet[..]));
            }
            (rangqoda::Verdict::Repaired(pattern), Verdict::Repaired(expected)) => {
                seen[1] += 1;
                assert_eq!(pattern.as_slice(), expected);
                assert!(std::ptr::eq(handed, &copy[..]));
            }
            (rangqoda::Verdict::Several { count, pattern }, Verdict::Several(number, first)) => {
                seen[2] += 1;
                assert_eq!((count, pattern.as_slice()), (number, &first[..]));
                assert!(handed.is_empty());
            }
            (rangqoda::Verdict::None, Verdict::None) => {
                seen[3] += 1;
                assert!(handed.is_empty());
            }
            (found, expected) => panic!("{found:?}, expected {expected:?}"),
        }
    }
    assert!(seen.iter().all(|&times| times > 30), "{seen:?}");
}

#[test]
fn the_wrapper_passes_refusals_on() {
    use rangqoda::{Mark, Pattern, Refusal, TableSlices, Tables, CCITT, FIVE, NO_CHECKSUM};
    for generator in UNFIT_GENERATORS {
        assert_eq!(rangqoda::remainder(Crc::plain(generator), &[0; 8]), Err(Refusal::Generator));
        assert_eq!(rangqoda::seal(Crc::plain(generator), &mut [0; 8]), Err(Refusal::Generator));
        assert_eq!(rangqoda::make(Crc::plain(generator), 7, 0..6, 0, &mut [0; 8]), Err(Refusal::Generator));
        assert_eq!(Tables::new(generator), Err(Refusal::Generator));
    }
    let tables = Tables::new(FIVE).unwrap();
    let TableSlices { step, first } = tables.as_slices();
    let mut output = [0; 16];
    let after = |positions: &[u16]| Mark::After(Pattern::new(positions).unwrap());
    assert_eq!(rangqoda::remainder(Crc::plain(CCITT), &[0; 2]), Err(Refusal::Length));
    let (wide, five) = (Crc { generator: FIVE, init: 0, xorout: 32 }, Crc::plain(FIVE));
    assert_eq!(rangqoda::remainder(wide, &[0; 2]), Err(Refusal::Values));
    assert_eq!(rangqoda::seal(wide, &mut [0; 2]), Err(Refusal::Values));
    assert_eq!(tables.repair(wide, 0..2, 0, 0, &[0; 3], &mut output[..3]), Err(Refusal::Values));
    assert_eq!(tables.repair(Crc::plain(CCITT), 0..1, 0, 1, &[0; 3], &mut output[..3]), Err(Refusal::TableLength));
    assert_eq!(tables.page(5, 2, 3, Mark::Start, &mut output), Err(Refusal::Length));
    assert_eq!(tables.page(8, MOST_POSITIONS + 1, 3, Mark::Start, &mut output), Err(Refusal::Limit));
    assert_eq!(tables.page(8, 2, 32, Mark::Start, &mut output), Err(Refusal::Syndrome));
    let short = TableSlices { step: &step[..31], first };
    assert_eq!(rangqoda::page(FIVE, 8, 2, 3, short, Mark::Start, &mut output), Err(Refusal::TableLength));
    let swapped = TableSlices { step: first, first: step };
    assert_eq!(rangqoda::page(FIVE, 8, 2, 3, swapped, Mark::Start, &mut output), Err(Refusal::TableEntry));
    assert_eq!(tables.page(8, 2, 3, after(&[3, 3]), &mut output), Err(Refusal::Mark));
    assert_eq!(tables.page(8, 2, 3, after(&[1, 2, 3]), &mut output), Err(Refusal::Mark));
    assert_eq!(tables.page(8, 2, 3, after(&[8]), &mut output), Err(Refusal::Mark));
    assert_eq!(tables.page(8, 2, 3, Mark::Start, &mut output[..RECORD_BYTES - 1]), Err(Refusal::Output));
    assert_eq!(tables.repair(five, 0..2, 0, 1, &[0; 3], &mut output), Err(Refusal::Output));
    assert_eq!(tables.repair(five, 0..3, 1, 1, &[0; 3], &mut output[..3]), Err(Refusal::Range));
    assert_eq!(tables.repair(five, 3..3, 0, 1, &[0; 3], &mut output[..3]), Err(Refusal::Range));
    assert_eq!(tables.repair(five, 0..2, 1, 1, &[0; 3], &mut output[..3]), Err(Refusal::Field));
    assert_eq!(tables.repair(five, 0..1, 0, 1, &[0; 3], &mut output[..3]), Err(Refusal::Field));
    assert_eq!(rangqoda::stamp(CCITT, 0..4, 1, &mut output), Err(Refusal::Field));
    assert_eq!(rangqoda::stamp(CCITT, NO_CHECKSUM, 0, &mut output), Err(Refusal::Field));
    assert_eq!(rangqoda::make(five, 7, NO_CHECKSUM, 0, &mut output), Err(Refusal::Field));
    assert_eq!(rangqoda::make(wide, 7, 0..4, 1, &mut []), Err(Refusal::Length));
    assert_eq!(rangqoda::make(wide, 7, 0..4, 1, &mut output), Err(Refusal::Values));
    assert_eq!(rangqoda::make(five, 7, 0..16, 1, &mut output), Err(Refusal::Range));
    assert_eq!(rangqoda::make(five, 7, 0..4, 1, &mut output), Err(Refusal::Field));
    assert_eq!(tables.patterns(8, 0, 3).err(), Some(Refusal::Limit));
    let (three, mut packet) = (&mut output[..3], [7; 3]);
    let mut simulated = |crc, range, field, limit, trials| {
        tables.simulate(crc, 7, range, field, limit, trials, &mut packet, three).unwrap_err()
    };
    assert_eq!(simulated(Crc::plain(8), 0..2, 0, 1, 1), Refusal::Generator);
    assert_eq!(simulated(wide, 0..2, 0, 1, 1), Refusal::Values);
    assert_eq!(simulated(five, 0..2, 0, MOST_POSITIONS + 1, 1), Refusal::Limit);
    assert_eq!(simulated(Crc::plain(9), 0..2, 0, 1, 1), Refusal::TableLength);
    assert_eq!(simulated(Crc::plain(FIVE + 2), 0..2, 0, 1, 1), Refusal::TableEntry);
    assert_eq!(simulated(five, 0..3, 0, 1, 1), Refusal::Range);
    assert_eq!(simulated(five, 0..2, 1, 1, 1), Refusal::Field);
    assert_eq!(simulated(five, NO_CHECKSUM, 0, 1, 1), Refusal::Field);
    for trials in [0, 65_536, 1 << 32 | 1, u64::MAX] {
        assert_eq!(simulated(five, 0..2, 0, 1, trials), Refusal::Trials);
    }
    assert_eq!(tables.simulate(five, 7, 0..2, 0, 1, 1, &mut packet, &mut output), Err(Refusal::Output));
    assert_eq!(tables.simulate(five, 7, 0..2, 0, 1, 1, &mut [], &mut []), Err(Refusal::Length));
    assert_eq!(packet, [7; 3]);
    for call in [rangqoda::scatter, rangqoda::gather] {
        assert_eq!(call(65, 1, &[1; 65], &mut output), Err(Refusal::BlockShape));
        assert_eq!(call(1 << 32, 1 << 32, &[], &mut []), Err(Refusal::BlockShape));
        assert_eq!(call(4, 4, &[1; 15], &mut output), Err(Refusal::BlockLength));
        assert_eq!(call(3, 5, &[1; 15], &mut output), Err(Refusal::BlockLength));
    }
    assert_eq!(output, [0; 16]);
}
