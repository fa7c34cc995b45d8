//! Remainder and seal.

use crate::common::{self, unfit_values, Random, UNFIT_GENERATORS, UNSET};
use crate::inputs::{some_bytes, some_crc};
use crate::reference;
use rangqoda::Crc;

#[test]
fn remainder_is_long_division() {
    let mut random = Random::new(1);
    let mut refused = [0; 12];
    for _ in 0..20_000 {
        let crc = some_crc(&mut random);
        let len = some_bytes(&mut random);
        let packet = random.packet(len);
        let expected = match reference::remainder(crc, &packet) {
            Ok(remainder) => (0, remainder),
            Err(number) => (number, UNSET),
        };
        refused[expected.0 as usize] += 1;
        assert_eq!(common::remainder(crc, &packet), expected, "{crc:?} {packet:02X?}");
    }
    for number in [0, 1, 2, 11] {
        assert!(refused[number] > 100, "{refused:?}");
    }
}

#[test]
fn remainder_of_every_short_packet() {
    for generator in (9..128).step_by(2) {
        let crc = Crc::plain(generator);
        for packet in 0..=0xFFFFu16 {
            let packet = packet.to_be_bytes();
            let expected = reference::remainder(crc, &packet).unwrap();
            assert_eq!(rangqoda::remainder(crc, &packet), Ok(expected), "{generator} {packet:02X?}");
        }
    }
}

/// All values and all packets of one byte; for degrees 5 and 6 both values reach the same bits there.
#[test]
fn every_initial_and_final_value_of_small_degrees() {
    for generator in [9, 19, 53, 0x43] {
        let bound = 1 << reference::degree(generator);
        for (init, xorout) in (0..bound).flat_map(|init| (0..bound).map(move |xorout| (init, xorout))) {
            let crc = Crc { generator, init, xorout };
            for byte in 0..=255 {
                let expected = reference::remainder(crc, &[byte]).unwrap();
                assert_eq!(rangqoda::remainder(crc, &[byte]), Ok(expected), "{crc:?} {byte:02X}");
                let mut sealed = [byte];
                reference::seal(crc, &mut sealed).unwrap();
                let mut packet = [byte];
                assert_eq!(rangqoda::seal(crc, &mut packet), Ok(()));
                assert_eq!(packet, sealed, "{crc:?} {byte:02X}");
            }
        }
    }
}

/// Remainder and seal of an accepted packet, against long division.
fn compare_packet(crc: Crc, packet: &[u8]) {
    let expected = reference::remainder(crc, packet).unwrap();
    assert_eq!(common::remainder(crc, packet), (0, expected), "{crc:?} {packet:02X?}");
    let mut sealed = packet.to_vec();
    reference::seal(crc, &mut sealed).unwrap();
    assert_eq!(common::seal(crc, packet), (0, sealed), "{crc:?} {packet:02X?}");
}

#[test]
fn values_in_packets_of_less_than_2n_bits() {
    let mut random = Random::new(20);
    for _ in 0..20_000 {
        // of degree 8 and below 5 no packet of whole bytes is so short
        let degree = random.pick(&[5, 6, 7, 9, 10, 11, 12, 13, 14, 15, 16]);
        let n = degree as usize;
        let generator = random.generator(degree);
        let crc = random.values(generator);
        let len = random.within(n / 8 + 1, (2 * n - 1) / 8);
        let packet = random.packet(len);
        compare_packet(crc, &packet);
    }
}

/// Division by ccitt goes by a table, a byte at a time: every two bytes that a packet can begin with, and every length, with the
/// values 0 and with others.
#[test]
fn ccitt_for_every_beginning_and_every_length() {
    let mut random = Random::new(30);
    let compare = |random: &mut Random, packet: &[u8]| {
        compare_packet(Crc::plain(rangqoda::CCITT), packet);
        let init = 1 + random.below(0xFFFF);
        compare_packet(Crc { generator: rangqoda::CCITT, init, xorout: random.below(0x10000) }, packet);
    };
    for beginning in 0..=0xFFFFu16 {
        let len = random.within(3, 6);
        let mut packet = random.packet(len);
        packet[..2].copy_from_slice(&beginning.to_be_bytes());
        compare(&mut random, &packet);
    }
    for len in 3..=512 {
        for _ in 0..8 {
            let packet = random.packet(len);
            compare(&mut random, &packet);
        }
    }
}

/// No other generator goes by ccitt's table: those that differ in one bit, and the reflected one.
#[test]
fn generators_close_to_ccitt() {
    let mut random = Random::new(31);
    for generator in (1..16).map(|i| rangqoda::CCITT ^ 1 << i).chain([0x10811]) {
        for len in [3, 4, 64, 511, 512] {
            let packet = random.packet(len);
            compare_packet(random.values(generator), &packet);
        }
    }
}

/// 1 before 2 before 11, in both calls.
#[test]
fn remainder_and_seal_refuse_in_their_order() {
    let mut random = Random::new(21);
    for (one, two, eleven) in (0..8).map(|set| (set & 1 == 1, set & 2 == 2, set & 4 == 4)) {
        for _ in 0..200 {
            let mut crc = random.values(53);
            if eleven {
                crc = unfit_values(&mut random, crc);
            }
            if one {
                crc.generator = random.pick(&UNFIT_GENERATORS);
            }
            let len = if two { random.pick(&[0, 513, 600]) } else { random.within(1, 512) };
            let packet = random.packet(len);
            let number = if one { 1 } else { u32::from(two) * 2 };
            let number = if number == 0 && eleven { 11 } else { number };
            assert_eq!(common::remainder(crc, &packet).0, number, "{crc:?} {len}");
            assert_eq!(common::seal(crc, &packet).0, number, "{crc:?} {len}");
            if number != 0 {
                assert_eq!(common::remainder(crc, &packet).1, UNSET);
                assert_eq!(common::seal(crc, &packet).1, packet);
            }
        }
    }
}

#[test]
fn seal_sets_the_last_bits() {
    let mut random = Random::new(2);
    for _ in 0..20_000 {
        let crc = some_crc(&mut random);
        let len = some_bytes(&mut random);
        let packet = random.packet(len);
        let mut sealed = packet.clone();
        let number = reference::seal(crc, &mut sealed).err().unwrap_or(0);
        assert_eq!(common::seal(crc, &packet), (number, sealed.clone()), "{crc:?} {packet:02X?}");
        if number == 0 {
            assert_eq!(common::remainder(crc, &sealed), (0, 0), "{crc:?} {packet:02X?}");
            assert_eq!(common::seal(crc, &sealed), (0, sealed.clone()), "{crc:?} {packet:02X?}");
        }
    }
}
