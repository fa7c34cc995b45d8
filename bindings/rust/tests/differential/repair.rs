//! Repair and what to publish after it.

use crate::common::{self, unfit_values, MakeCall, Random, RepairCall, RepairLent, HUGE, UNFIT_GENERATORS};
use crate::inputs::{
    fit_place, some_length, some_received, spoiled, unfit_field, unfit_length, unfit_limit, unfit_range, Broken,
};
use crate::maker::compare_make;
use crate::reference::{self, Verdict, MOST_POSITIONS, VERDICT_BYTES};
use rangqoda::Crc;

/// Compares a repair and gives the reference's answer.
fn compare_repair(call: &RepairCall<'_>, before: &RepairLent) -> reference::Answer<Verdict> {
    let of = reference::RepairOf {
        crc: call.crc,
        start: call.start,
        end: call.end,
        field: call.field,
        limit: call.limit,
        step: call.step,
        first: call.first,
        packet: call.packet,
    };
    // The boundary's own condition, a verdict of the wrong length, is 8 too: as an output of a wrong length is.
    let mut output = before.output.clone();
    let answer = if before.verdict.len() == VERDICT_BYTES {
        reference::repair(&of, &mut output)
    } else {
        let mut unfit = vec![0; call.packet.len() + 1];
        reference::repair(&of, &mut unfit)
    };
    let (number, after) = common::repair(call, before);
    let told = format!("{call:?}: {number} {:?}, expected {answer:?}", after.verdict);
    match &answer {
        Err(expected) => {
            assert_eq!(number, *expected, "{told}");
            assert_eq!(after, *before, "a refused repair changed something: {told}");
        }
        Ok(verdict) => {
            assert_eq!(number, 0, "{told}");
            assert_eq!(after.output, output, "{told}");
            assert_eq!(after.verdict, reference::verdict_bytes(verdict), "{told}");
        }
    }
    answer
}

#[test]
fn repair_gives_the_verdict() {
    let mut random = Random::new(12);
    let mut seen = [0; 4];
    for round in 0..3_000 {
        let received = some_received(&mut random, if round % 100 == 0 { 2_000_000 } else { 30_000 });
        let tables = reference::tables_of(received.crc.generator);
        let call = RepairCall {
            crc: received.crc,
            start: received.start,
            end: received.end,
            field: received.field,
            limit: received.limit,
            step: &tables.step,
            first: &tables.first,
            packet: &received.packet,
        };
        let lent = RepairLent { output: random.bytes(received.packet.len()), verdict: random.bytes(VERDICT_BYTES) };
        let verdict = compare_repair(&call, &lent).unwrap();
        seen[match verdict {
            Verdict::Intact => 0,
            Verdict::Repaired(_) => 1,
            Verdict::Several(..) => 2,
            Verdict::None => 3,
        }] += 1;
        assert!(reference::passes(&received.sent, received.start, received.end, received.field));
        if received.flips <= received.limit {
            assert_ne!(verdict, Verdict::None, "the packet sent is within the limit");
            if let Verdict::Repaired(pattern) = verdict {
                assert_eq!(reference::flipped(&received.packet, &pattern), received.sent);
            }
        }
    }
    assert!(seen.iter().all(|&times| times > 100), "{seen:?}");
}

#[test]
fn repair_of_long_packets() {
    let mut random = Random::new(13);
    for (generator, len, limit) in [
        (rangqoda::CCITT, 512, 1),
        (rangqoda::CCITT, 512, 2),
        (rangqoda::CCITT, 511, 2),
        (0x18005, 512, 2),
        (rangqoda::CCITT, 40, 3),
        (rangqoda::CCITT, 14, 4),
        (0x10001, 512, 1),
        (9, 512, 1),
        (53, 100, 2),
    ] {
        let n = reference::degree(generator);
        let tables = reference::tables_of(generator);
        for flips in 0..=limit {
            let (start, end) = (random.within(0, 3), (8 * len - n) / 8 - random.within(0, 1));
            let mut sent = random.bytes(len);
            let crc = random.values(generator);
            let field = start + 2;
            reference::stamp(generator, start, end, field, &mut sent).unwrap();
            reference::seal(crc, &mut sent).unwrap();
            let packet = reference::flipped(&sent, &random.positions(flips, 8 * len));
            let (step, first) = (&tables.step[..], &tables.first[..]);
            let call = RepairCall { crc, start, end, field, limit, step, first, packet: &packet };
            let lent = RepairLent { output: random.bytes(len), verdict: random.bytes(VERDICT_BYTES) };
            let verdict = compare_repair(&call, &lent).unwrap();
            assert_ne!(verdict, Verdict::None);
            assert_eq!(verdict == Verdict::Intact, flips == 0);
        }
    }
}

#[test]
fn repair_of_any_bytes() {
    let mut random = Random::new(14);
    for _ in 0..1_500 {
        let generator = random.known_generator();
        let limit = random.within(1, MOST_POSITIONS);
        let len = some_length(&mut random, 32, limit, 30_000) / 8;
        let packet = random.packet(len);
        let tables = reference::tables_of(generator);
        let end = random.within(0, len + 1);
        let start = random.within(0, end);
        let field = start + 2 * random.within(0, 2);
        let crc = random.values(generator);
        let (step, first) = (&tables.step[..], &tables.first[..]);
        let call = RepairCall { crc, start, end, field, limit, step, first, packet: &packet };
        let lent = RepairLent { output: random.bytes(len), verdict: random.bytes(VERDICT_BYTES) };
        let _ = compare_repair(&call, &lent);
    }
}

/// Several's pattern by brute force: every set of flips is made, and both checks are taken of the packet that it makes. Those that
/// leave remainder 0 are then sorted, and the first that passes is named. It is also the least by the wrapper's comparison. Often it
/// is neither the first listed, nor the last that passes, nor the last of the fewest positions that do, nor of these the one with
/// the lowest positions.
#[test]
fn several_names_the_earliest() {
    let mut random = Random::new(26);
    let sets: Vec<u32> = (0..1 << 24).filter(|set: &u32| set.count_ones() <= 4).collect();
    let mut others = [0; 4];
    for round in 0..300 {
        let (generator, end) = [(9, 2), (11, 2), (53, 2), (53, 0), (0x107, 2)][round % 5];
        let (crc, limit, flips) = (random.values(generator), random.within(2, 4), random.within(1, 4));
        let mut sent = [0xFF, 0xFF, 0];
        reference::seal(crc, &mut sent).unwrap();
        let packet = reference::flipped(&sent, &random.positions(flips, 24));
        let mut listed: Vec<Vec<u16>> = sets
            .iter()
            .filter(|set| set.count_ones() as usize <= limit)
            .map(|set| (0..24).filter(|p| set >> p & 1 == 1).collect())
            .filter(|set: &Vec<u16>| reference::remainder(crc, &reference::flipped(&packet, set)) == Ok(0))
            .collect();
        listed.sort_by(|a, b| reference::order(a, b));
        let passing: Vec<&Vec<u16>> =
            listed.iter().filter(|set| reference::passes(&reference::flipped(&packet, set), 0, end, 0)).collect();
        let tables = rangqoda::Tables::new(generator).unwrap();
        let verdict = tables.repair(crc, 0..end, 0, limit, &packet, &mut [0; 3]).unwrap();
        if passing.len() < 2 || passing[0].is_empty() {
            assert!(!matches!(verdict, rangqoda::Verdict::Several { .. }));
            continue;
        }
        let pattern = rangqoda::Pattern::new(passing[0]).unwrap();
        assert_eq!(verdict, rangqoda::Verdict::Several { count: passing.len() as u64, pattern });
        assert_eq!(passing.iter().filter_map(|set| rangqoda::Pattern::new(set)).min(), Some(pattern));
        let fewest = passing.iter().filter(|set| set.len() == passing[0].len());
        let wrong =
            [listed.first(), passing.last().copied(), fewest.clone().next_back().copied(), fewest.min().copied()];
        for (times, other) in others.iter_mut().zip(wrong) {
            *times += usize::from(other != Some(passing[0]));
        }
    }
    assert!(others.iter().all(|&times| times > 20), "{others:?}");
}

/// Fields that are zero, or that flips make zero, by brute force: every set of flips is made, and both checks are taken of the packet
/// that it makes. Often the sum alone, or the field as it was received, would say something else.
#[test]
fn fields_are_looked_at_after_the_flips() {
    let mut random = Random::new(28);
    let (mut summed, mut received) = (0, 0);
    for round in 0..600 {
        let generator = [9, 53, 0x107][round % 3];
        let (len, start, end, field) =
            random.pick(&[(4, 0, 2, 0), (4, 1, 3, 1), (4, 0, 3, 0), (5, 0, 4, 2), (5, 1, 4, 1), (6, 0, 5, 2)]);
        let (crc, limit, ones) = (random.values(generator), random.within(1, 3), random.within(0, 3));
        let mut packet = random.bytes(len);
        packet[field..field + 2].fill(0);
        if random.once_in(2) {
            reference::seal(crc, &mut packet).unwrap();
        }
        let lowest = 8 * (len - field - 2) as u16;
        let inside: Vec<u16> = random.positions(ones, 16).iter().map(|p| p + lowest).collect();
        let packet = reference::flipped(&packet, &inside);
        let mut list: Vec<(Vec<u16>, Vec<u8>)> = Vec::new();
        reference::every_set(8 * len as u16, limit, &mut |set| {
            let flipped = reference::flipped(&packet, set);
            if reference::remainder(crc, &flipped) == Ok(0) {
                list.push((set.to_vec(), flipped));
            }
        });
        list.sort_by(|(a, _), (b, _)| reference::order(a, b));
        let zero = |packet: &[u8]| packet[field..field + 2] == [0, 0];
        let sum = |packet: &[u8]| reference::sum(&packet[start..end]) == 0xFFFF;
        let told = |passes: &dyn Fn(&[u8]) -> bool| {
            if reference::remainder(crc, &packet) == Ok(0) && passes(&packet) {
                return (true, 0, None);
            }
            let passing: Vec<&Vec<u16>> = list.iter().filter(|(_, to)| passes(to)).map(|(set, _)| set).collect();
            (false, passing.len() as u64, passing.first().map(|set| set.to_vec()))
        };
        let expected = told(&|packet| zero(packet) || sum(packet));
        let tables = rangqoda::Tables::new(generator).unwrap();
        let mut copy = vec![0xEE; len];
        let verdict = match tables.repair(crc, start..end, field, limit, &packet, &mut copy).unwrap() {
            rangqoda::Verdict::Intact => (true, 0, None),
            rangqoda::Verdict::Repaired(pattern) => (false, 1, Some(pattern.as_slice().to_vec())),
            rangqoda::Verdict::Several { count, pattern } => (false, count, Some(pattern.as_slice().to_vec())),
            rangqoda::Verdict::None => (false, 0, None),
        };
        assert_eq!(verdict, expected, "{crc:?} {start} {end} {field} {limit} {packet:?}");
        let left = if verdict.1 == 1 { reference::flipped(&packet, &verdict.2.unwrap()) } else { vec![0xEE; len] };
        assert_eq!(copy, left);
        summed += usize::from(told(&sum) != expected);
        received += usize::from(told(&|other| zero(&packet) || sum(other)) != expected);
    }
    assert!(summed > 100 && received > 100, "{summed} {received}");
}

/// Packets that carry no checksum, at every place for the range and in every damage of up to two bits: by the remainder and the
/// list alone, the same wherever the range stands and whatever is given for the field. Stamp and maker have no field there.
#[test]
fn no_checksum_at_every_place() {
    let mut random = Random::new(25);
    let mut listed = [0; 3];
    for (generator, len, most) in [
        (9, 2, 4),
        (11, 3, 4),
        (53, 2, 4),
        (53, 4, 2),
        (0x107, 3, 4),
        (0x107, 5, 2),
        (0x18005, 3, 4),
        (rangqoda::CCITT, 4, 2),
    ] {
        let n = reference::degree(generator);
        let crc = random.values(generator);
        let tables = reference::tables_of(generator);
        let (step, first) = (&tables.step[..], &tables.first[..]);
        let mut sent = random.bytes(len);
        reference::seal(crc, &mut sent).unwrap();
        let bits = 8 * len as u16;
        let pairs = (0..bits).flat_map(|p| (0..=p).map(move |q| if p == q { vec![p] } else { vec![q, p] }));
        for pattern in [vec![]].into_iter().chain(pairs) {
            let packet = reference::flipped(&sent, &pattern);
            let limit = random.within(1, most);
            let lent = RepairLent { output: random.bytes(len), verdict: random.bytes(VERDICT_BYTES) };
            let call = RepairCall { crc, start: 0, end: 0, field: 0, limit, step, first, packet: &packet };
            let answer = compare_repair(&call, &lent);
            let told = common::repair(&call, &lent);
            let syndrome = reference::remainder(crc, &packet).unwrap();
            let list = reference::list(generator, 8 * len, limit, syndrome);
            let by_list = match (syndrome, list.len()) {
                (0, _) => Verdict::Intact,
                (_, 0) => Verdict::None,
                (_, 1) => Verdict::Repaired(list[0].clone()),
                (_, count) => Verdict::Several(count as u64, list[0].clone()),
            };
            listed[list.len().min(2)] += 1;
            assert_eq!(answer, Ok(by_list));
            if pattern.len() <= limit {
                assert_ne!(answer, Ok(Verdict::None), "the packet sent is within the limit");
                if let Ok(Verdict::Repaired(_)) = answer {
                    assert_eq!(told.1.output, sent);
                }
            }
            for place in 1..len + 2 {
                let field = random.pick(&[0, place, len - 2, len, usize::MAX]);
                let found = common::repair(&RepairCall { start: place, end: place, field, ..call.clone() }, &lent);
                let expected = if 8 * place <= 8 * len - n { told.clone() } else { (9, lent.clone()) };
                assert_eq!(found, expected, "{crc:?} {place}");
            }
        }
        for place in 0..len + 2 {
            let number = if 8 * place <= 8 * len - n { 10 } else { 9 };
            for field in (0..len + 2).chain(HUGE) {
                assert_eq!(common::stamp(generator, place, place, field, &sent), (number, sent.clone()));
                let call = MakeCall { crc, seed: 7, start: place, end: place, field };
                assert_eq!(compare_make(&call, &sent), number, "{call:?}");
            }
        }
    }
    assert!(listed.iter().all(|&times| times > 100), "{listed:?}");
}

#[test]
fn publish_tells_what_to_publish_from() {
    let mut random = Random::new(15);
    for kind in 0..=255u8 {
        for len in 0..40 {
            let mut verdict = random.bytes(len);
            if let Some(first) = verdict.first_mut() {
                *first = kind;
            }
            let expected = match kind {
                0 | 1 if len == VERDICT_BYTES => u32::from(kind),
                _ => 2,
            };
            assert_eq!(common::publish(&verdict), expected, "{verdict:02X?}");
        }
    }
}

#[test]
fn repair_refuses_by_the_first_that_applies() {
    let mut random = Random::new(17);
    let order = [1, 2, 11, 3, 5, 6, 8, 9, 10];
    for broken in Broken::subsets(&order) {
        for _ in 0..24 {
            let degree = random.within(3, 8) as u32;
            let generator = random.generator(degree);
            let n = degree as usize;
            let tables = reference::tables_of(generator);
            let limit = random.within(1, 2);
            let room = random.within(3, 24);
            let len = if broken.has(2) { random.pick(&[0, n / 8, 513, 514, 1000]) } else { room };
            let packet = random.packet(len);
            let (mut start, mut end, mut field) = fit_place(&mut random, room, n);
            if broken.has(10) {
                field = unfit_field(&mut random, start, end);
            } else if random.once_in(4) {
                // an empty range, with any number for the field
                (start, field) = (end, unfit_field(&mut random, start, end));
            }
            if broken.has(9) {
                (start, end) = unfit_range(&mut random, start, end, (8 * room - n) / 8);
            }
            let (mut step, mut first) = if broken.has(6) {
                spoiled(&mut random, generator, &tables)
            } else {
                (tables.step.clone(), tables.first.clone())
            };
            if broken.has(5) {
                let which = random.below(3);
                if which != 0 {
                    step = unfit_length(&mut random, &step);
                }
                if which != 1 {
                    first = unfit_length(&mut random, &first);
                }
            }
            let mut crc = random.values(generator);
            if broken.has(11) {
                crc = unfit_values(&mut random, crc);
            }
            if broken.has(1) {
                crc.generator = random.pick(&UNFIT_GENERATORS);
            }
            let call = RepairCall {
                crc,
                start,
                end,
                field,
                limit: if broken.has(3) { unfit_limit(&mut random) } else { limit },
                step: &step,
                first: &first,
                packet: &packet,
            };
            let (mut output, mut verdict) = (len, VERDICT_BYTES);
            if broken.has(8) {
                let which = random.below(3);
                if which != 0 {
                    output = random.pick(&[len + 1, len.max(1) - 1, 2 * len + 3, len + 256]);
                }
                if output == len || which != 1 {
                    verdict = random.pick(&[0, 1, 9, VERDICT_BYTES - 1, VERDICT_BYTES + 1, 2 * VERDICT_BYTES]);
                }
            }
            let lent = RepairLent { output: random.bytes(output), verdict: random.bytes(verdict) };
            let number = compare_repair(&call, &lent).err().unwrap_or(0);
            assert_eq!(number, broken.first(&order), "{call:?} {lent:?}");
        }
    }
}

#[test]
fn huge_numbers_are_refused() {
    let tables = reference::tables_of(rangqoda::CCITT);
    let (step, first) = (&tables.step[..], &tables.first[..]);
    let packet = [0x5A; 16];
    for huge in HUGE {
        let crc = Crc::plain(rangqoda::CCITT);
        let call = RepairCall { crc, start: 0, end: 14, field: 4, limit: 1, step, first, packet: &packet };
        let lent = RepairLent { output: vec![0; 16], verdict: vec![0; VERDICT_BYTES] };
        assert_eq!(compare_repair(&RepairCall { start: huge, ..call.clone() }, &lent), Err(9));
        assert_eq!(compare_repair(&RepairCall { end: huge, ..call.clone() }, &lent), Err(9));
        assert_eq!(compare_repair(&RepairCall { start: huge, end: huge, ..call.clone() }, &lent), Err(9));
        assert_eq!(compare_repair(&RepairCall { field: huge, ..call.clone() }, &lent), Err(10));
        assert!(compare_repair(&RepairCall { start: 3, end: 3, field: huge, ..call.clone() }, &lent).is_ok());
        assert_eq!(compare_repair(&RepairCall { limit: huge, ..call.clone() }, &lent), Err(3));
        for (generator, init, xorout, number) in
            [(huge as u64, 0, 0, 1), (0x11021, huge as u64, 0, 11), (0x11021, 0, huge as u64, 11)]
        {
            let crc = Crc { generator, init, xorout };
            assert_eq!(compare_repair(&RepairCall { crc, ..call.clone() }, &lent), Err(number));
        }
    }
}
