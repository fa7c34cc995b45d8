//! The packet maker.

use crate::common::{self, unfit_values, MakeCall, Random, RepairCall, RepairLent, UNFIT_GENERATORS, UNSET};
use crate::inputs::{any_place, fit_place, some_bytes, some_crc, some_seed, unfit_field, unfit_range, Broken};
use crate::reference::{self, Verdict, MOST_POSITIONS, VERDICT_BYTES};

/// Compares a made packet, and gives the number of the answer.
pub fn compare_make(call: &MakeCall, before: &[u8]) -> u32 {
    let MakeCall { crc, seed, start, end, field } = *call;
    let mut packet = before.to_vec();
    let expected = match reference::make(crc, seed, start, end, field, &mut packet) {
        Ok(state) => (0, packet, state),
        Err(number) => (number, before.to_vec(), UNSET as u32),
    };
    let found = common::make(call, before);
    assert!(found == expected, "{call:?} {}: {found:02X?}, expected {expected:02X?}", before.len());
    found.0
}

#[test]
fn make_fills_stamps_and_seals() {
    let mut random = Random::new(22);
    let mut refused = [0; 12];
    for _ in 0..20_000 {
        let crc = some_crc(&mut random);
        let len = some_bytes(&mut random);
        let before = random.packet(len);
        let (start, end, field) = any_place(&mut random, len);
        let call = MakeCall { crc, seed: some_seed(&mut random), start, end, field };
        refused[compare_make(&call, &before) as usize] += 1;
    }
    for number in [0, 1, 2, 9, 10, 11] {
        assert!(refused[number] > 100, "{refused:?}");
    }
}

#[test]
fn make_refuses_by_the_first_that_applies() {
    let mut random = Random::new(23);
    let order = [1, 2, 11, 9, 10];
    for broken in Broken::subsets(&order) {
        for _ in 0..100 {
            let degree = random.within(3, 16) as u32;
            let n = degree as usize;
            let generator = random.generator(degree);
            let mut crc = random.values(generator);
            let room = random.within((n + 7) / 8 + 2, 40);
            let (mut start, mut end, mut field) = fit_place(&mut random, room, n);
            if broken.has(10) {
                field = unfit_field(&mut random, start, end);
                if random.once_in(4) {
                    (end, field) = (start, random.within(0, room)); // an empty range has no room for a field
                }
            }
            if broken.has(9) {
                (start, end) = unfit_range(&mut random, start, end, (8 * room - n) / 8);
            }
            let len = if broken.has(2) { random.pick(&[0, n / 8, 513, 600]) } else { room };
            if broken.has(11) {
                crc = unfit_values(&mut random, crc);
            }
            if broken.has(1) {
                crc.generator = random.pick(&UNFIT_GENERATORS);
            }
            let call = MakeCall { crc, seed: some_seed(&mut random), start, end, field };
            let before = random.packet(len);
            assert_eq!(compare_make(&call, &before), broken.first(&order), "{call:?} {len}");
        }
    }
}

/// At every limit, and with the output left alone.
#[test]
fn every_packet_made_is_intact() {
    let mut random = Random::new(24);
    for round in 0..4_000 {
        let generator = random.known_generator();
        let n = reference::degree(generator);
        let crc = random.values(generator);
        let len = random.within((n + 7) / 8 + 2, if round % 4 == 0 { 512 } else { 40 });
        let (start, end, field) = fit_place(&mut random, len, n);
        let call = MakeCall { crc, seed: some_seed(&mut random), start, end, field };
        let (number, packet, _) = common::make(&call, &vec![0; len]);
        assert_eq!(number, 0, "{call:?}");
        let tables = reference::tables_of(generator);
        let (step, first) = (&tables.step[..], &tables.first[..]);
        let lent = RepairLent { output: random.bytes(len), verdict: random.bytes(VERDICT_BYTES) };
        for limit in 1..=MOST_POSITIONS {
            let repair = RepairCall { crc, start, end, field, limit, step, first, packet: &packet };
            let intact =
                RepairLent { output: lent.output.clone(), verdict: reference::verdict_bytes(&Verdict::Intact) };
            assert_eq!(common::repair(&repair, &lent), (0, intact), "{call:?} {len} {limit}");
        }
    }
}
