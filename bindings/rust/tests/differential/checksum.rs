//! Sum and stamp.

use crate::common::{self, Random, HUGE};
use crate::inputs::{any_place, some_bytes, some_generator};
use crate::reference;

#[test]
fn sum_is_that_of_rfc_1071() {
    let mut random = Random::new(3);
    for len in (0..70).chain([510, 511, 512, 513, 4095, 65535, 65536]) {
        for _ in 0..20 {
            let bytes = random.packet(len);
            assert_eq!(common::sum(&bytes), reference::sum(&bytes), "{bytes:02X?}");
        }
    }
    // more words than 32 bits hold the total of
    for len in [131_074, 131_076, 1 << 20, (1 << 20) + 1] {
        for byte in [0xFF, 0xFE] {
            let bytes = vec![byte; len];
            assert_eq!(common::sum(&bytes), reference::sum(&bytes), "{len} times {byte:02X}");
        }
    }
    // every pair of words near the fold
    for a in [0x0000u16, 0x0001, 0x7FFF, 0x8000, 0xFFFE, 0xFFFF] {
        for b in [0x0000u16, 0x0001, 0x7FFF, 0x8000, 0xFFFE, 0xFFFF] {
            let bytes = [a.to_be_bytes(), b.to_be_bytes()].concat();
            assert_eq!(common::sum(&bytes), reference::sum(&bytes), "{bytes:02X?}");
        }
    }
}

#[test]
fn a_stamped_range_has_the_sum_ffff() {
    let mut random = Random::new(4);
    let mut refused = [0; 11];
    for _ in 0..40_000 {
        let generator = some_generator(&mut random);
        let len = some_bytes(&mut random);
        let packet = random.packet(len);
        let (start, end, field) = any_place(&mut random, len);
        let mut stamped = packet.clone();
        let number = reference::stamp(generator, start, end, field, &mut stamped).err().unwrap_or(0);
        refused[number as usize] += 1;
        let found = common::stamp(generator, start, end, field, &packet);
        assert_eq!(found, (number, stamped.clone()), "{generator} {start}..{end} {field} {packet:02X?}");
        if number == 0 {
            assert_eq!(common::sum(&stamped[start..end]), 0xFFFF);
        }
    }
    for number in [0, 1, 2, 9, 10] {
        assert!(refused[number] > 100, "{refused:?}");
    }
}

/// Another word of the range first makes the sum FFFFh, with zeros in the field: what is then computed for the field is 0.
#[test]
fn a_computed_zero_is_written_as_ffff() {
    let mut random = Random::new(29);
    for _ in 0..4_000 {
        let generator = random.known_generator();
        let n = reference::degree(generator);
        let len = random.within((n + 7) / 8 + 4, 40);
        let end = (8 * len - n) / 8;
        let start = random.within(0, end - 4);
        let words = (end - start) / 2;
        let (field, other) = (random.within(0, words - 1), random.within(0, words - 2));
        let (field, other) = (start + 2 * field, start + 2 * (other + usize::from(other >= field)));
        let mut packet = random.bytes(len);
        packet[field..field + 2].fill(0);
        reference::stamp(generator, start, end, other, &mut packet).unwrap();
        let mut stamped = packet.clone();
        stamped[field..field + 2].fill(0xFF);
        assert_eq!(common::stamp(generator, start, end, field, &packet), (0, stamped.clone()));
        assert_eq!(common::sum(&stamped[start..end]), 0xFFFF);
    }
}

#[test]
fn stamp_at_every_place_of_a_small_packet() {
    let mut random = Random::new(5);
    let edges: Vec<usize> = (0..9).chain(HUGE).collect();
    for generator in [53, 11, rangqoda::CCITT] {
        let packet = random.bytes(7);
        for &start in &edges {
            for &end in &edges {
                for &field in &edges {
                    let mut stamped = packet.clone();
                    let number = reference::stamp(generator, start, end, field, &mut stamped).err().unwrap_or(0);
                    let found = common::stamp(generator, start, end, field, &packet);
                    assert_eq!(found, (number, stamped), "{generator} {start}..{end} {field}");
                }
            }
        }
    }
}
