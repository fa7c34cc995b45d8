//! The simulation: rows, state, packet and output.

use crate::common::{
    self, unfit_values, MakeCall, Random, RepairCall, RepairLent, SimulateCall, SimulateLent, HUGE, UNFIT_GENERATORS,
    UNSET,
};
use crate::inputs::{fit_place, some_seed, spoiled, unfit_field, unfit_length, unfit_limit, unfit_range, ways, Broken};
use crate::reference::{self, Tables, COUNTS, MOST_FLIPS, MOST_POSITIONS, VERDICT_BYTES};
use rangqoda::Crc;
use std::collections::BTreeSet;

/// Memory for a simulation, with something in it.
fn lent(random: &mut Random, len: usize) -> SimulateLent {
    SimulateLent {
        packet: random.bytes(len),
        output: random.bytes(len),
        counts: (0..COUNTS).map(|_| random.next() as u32).collect(),
        state: UNSET as u32,
    }
}

/// Compares a simulation, and gives the number of the answer with what the library left.
fn compare_simulate(call: &SimulateCall<'_>, before: &SimulateLent) -> (u32, SimulateLent) {
    let of = reference::SimulateOf {
        crc: call.crc,
        seed: call.seed,
        start: call.start,
        end: call.end,
        field: call.field,
        limit: call.limit,
        trials: call.trials,
        step: call.step,
        first: call.first,
    };
    let mut expected = before.clone();
    let answer = reference::simulate(&of, &mut expected.packet, &mut expected.output, &mut expected.counts);
    let (number, after) = common::simulate(call, before);
    let told = || {
        let SimulateCall { crc, seed, start, end, field, limit, trials, .. } = call;
        format!("{crc:?} {seed} {start}..{end} {field} {limit} {trials}, {} bytes", before.packet.len())
    };
    match answer {
        Err(expected) => {
            assert_eq!(number, expected, "{}", told());
            assert_eq!(after, *before, "a refused simulation changed something: {}", told());
        }
        Ok(state) => {
            expected.state = state;
            assert_eq!(number, 0, "{}", told());
            assert_eq!(after.counts, expected.counts, "{}", told());
            assert_eq!(after.state, expected.state, "{}", told());
            assert_eq!(after.packet, expected.packet, "{}", told());
            assert_eq!(after.output, expected.output, "{}", told());
        }
    }
    (number, after)
}

/// What is said of every accepted simulation.
fn hold_the_rows_to_the_rules(counts: &[u32], limit: usize, trials: u64) {
    for (flips, row) in counts.chunks(5).enumerate() {
        assert_eq!(row.iter().map(|&count| u64::from(count)).sum::<u64>(), trials, "{flips}: {row:?}");
        if flips == 0 {
            assert_eq!(u64::from(row[0]), trials, "{row:?}");
        }
        if flips <= limit {
            assert_eq!((row[2], row[4]), (0, 0), "{flips}: {row:?}");
        }
    }
}

/// Generators with few and with many patterns of one syndrome, with their shortest packets: a field and the CRC.
const GENERATORS: [u64; 8] = [9, 11, 53, 0x107, 0x633, 0xC599, 0x18005, rangqoda::CCITT];

/// A call of a CRC, and the length of the packet: short, or such that the reference tries not too many patterns.
fn some_call<'a>(random: &mut Random, crc: Crc, tables: &'a Tables, most: u64) -> (SimulateCall<'a>, usize) {
    let n = reference::degree(crc.generator);
    let (shortest, limit) = ((n + 23) / 8, random.within(1, MOST_POSITIONS));
    let some = random.within(4, 40) as u64;
    let trials = random.pick(&[1, 2, 3, some]);
    let mut longest = shortest;
    while longest < 512 && trials * ways(8 * longest + 8, limit) <= most {
        longest += 1;
    }
    let len = if random.once_in(4) { shortest } else { random.within(shortest, longest) };
    let (start, end, field) = fit_place(random, len, n);
    let seed = some_seed(random);
    let (step, first) = (&tables.step[..], &tables.first[..]);
    (SimulateCall { crc, seed, start, end, field, limit, trials, step, first }, len)
}

#[test]
fn simulations_count_the_verdicts() {
    let mut random = Random::new(90);
    let mut seen = [[0; 5]; MOST_FLIPS + 1];
    let (mut kept, mut written, mut limits, mut lengths) = (0, 0, [0; MOST_POSITIONS + 1], BTreeSet::new());
    for round in 0..240 {
        let generator = GENERATORS[round % GENERATORS.len()];
        let tables = reference::tables_of(generator);
        let crc = random.values(generator);
        let (call, len) = some_call(&mut random, crc, &tables, 200_000);
        let before = lent(&mut random, len);
        let (number, after) = compare_simulate(&call, &before);
        assert_eq!(number, 0);
        hold_the_rows_to_the_rules(&after.counts, call.limit, call.trials);

        // only what was lent as output and no repair wrote may differ where other memory was lent
        let other = lent(&mut random, len);
        let (_, again) = common::simulate(&call, &other);
        assert_eq!((&again.counts, again.state, &again.packet), (&after.counts, after.state, &after.packet));
        let repaired = after.counts.chunks(5).any(|row| row[1] + row[2] > 0);
        assert_eq!(again.output, if repaired { after.output.clone() } else { other.output.clone() });
        assert!(repaired || after.output == before.output);

        for (row, five) in seen.iter_mut().zip(after.counts.chunks(5)) {
            for (column, &count) in row.iter_mut().zip(five) {
                *column += count;
            }
        }
        kept += usize::from(after.output == before.output);
        written += usize::from(after.output != before.output);
        limits[call.limit] += 1;
        lengths.insert(len);
    }
    // every outcome is seen with flips, and beyond one flip in nearly every row: up to four may be within the limit
    for column in 0..5 {
        assert!(seen[1..].iter().map(|row| row[column]).sum::<u32>() > 30, "{seen:?}");
    }
    assert!(seen[1..=MOST_POSITIONS].iter().all(|row| row[1] > 100 && row[3] > 100), "{seen:?}");
    assert!(seen[2..].iter().all(|row| row[2] > 0 && row[3] > 20 && row[4] > 100), "{seen:?}");
    assert!(kept > 10 && written > 100, "{kept} {written}");
    assert!(limits[1..].iter().all(|&times| times > 30), "{limits:?}");
    assert!(lengths.contains(&3) && lengths.len() > 20, "{lengths:?}");
}

/// Long packets, up to the longest, where a draw reaches far beyond what a byte counts.
#[test]
fn simulations_of_long_packets() {
    let mut random = Random::new(91);
    for (generator, len, limit, trials) in [
        (rangqoda::CCITT, 512, 1, 12),
        (rangqoda::CCITT, 511, 1, 5),
        (rangqoda::CCITT, 64, 2, 6),
        (rangqoda::CCITT, 24, 3, 2),
        (0x18005, 512, 1, 3),
        (0x107, 300, 1, 6),
        (53, 512, 1, 5),
        (9, 256, 1, 5),
    ] {
        let tables = reference::tables_of(generator);
        let crc = random.values(generator);
        let (start, end, field) = fit_place(&mut random, len, reference::degree(generator));
        let seed = some_seed(&mut random);
        let (step, first) = (&tables.step[..], &tables.first[..]);
        let call = SimulateCall { crc, seed, start, end, field, limit, trials, step, first };
        let (number, after) = compare_simulate(&call, &lent(&mut random, len));
        assert_eq!(number, 0);
        hold_the_rows_to_the_rules(&after.counts, limit, trials);
    }
}

/// Every limit, with the seeds at both ends, at the shortest length: 24 bits, of which eight flip.
#[test]
fn simulations_of_three_bytes() {
    let mut random = Random::new(92);
    for generator in [9, 11, 53, 0x107] {
        let tables = reference::tables_of(generator);
        let (step, first) = (&tables.step[..], &tables.first[..]);
        for limit in 1..=MOST_POSITIONS {
            for seed in [0, u32::MAX, random.next() as u32] {
                for trials in [1, 2, 24] {
                    let crc = random.values(generator);
                    let call = SimulateCall { crc, seed, start: 0, end: 2, field: 0, limit, trials, step, first };
                    let (number, after) = compare_simulate(&call, &lent(&mut random, 3));
                    assert_eq!(number, 0);
                    hold_the_rows_to_the_rules(&after.counts, limit, trials);
                }
            }
        }
    }
}

/// Draws that meet positions taken before, or places behind such, are common: a place among all positions is another one there.
#[test]
fn draws_are_without_repetition() {
    let mut random = Random::new(93);
    let (mut repeated, mut moved) = (0, 0);
    let tables = reference::tables_of(53);
    for _ in 0..400 {
        let seed = some_seed(&mut random);
        let crc = random.values(53);
        let call = SimulateCall {
            crc,
            seed,
            start: 0,
            end: 2,
            field: 0,
            limit: 1,
            trials: 1,
            step: &tables.step,
            first: &tables.first,
        };
        let (_, after) = common::simulate(&call, &lent(&mut random, 3));

        // the last trial anew: its packet is made after eight others and their draws
        let step = |state: u32| state.wrapping_mul(1664525).wrapping_add(1013904223);
        let begun = (0..8 * 3 + 28).fold(seed, |state, _| step(state));
        let mut received = [0; 3];
        let mut state = reference::make(crc, begun, 0, 2, 0, &mut received).unwrap();
        let mut taken: Vec<u32> = Vec::new();
        for i in 0..8 {
            state = step(state);
            let place = state % (24 - i);
            repeated += usize::from(taken.contains(&(state % 24)));
            let mut position = place;
            taken.sort_unstable();
            for &before in &taken {
                position += u32::from(before <= position);
            }
            moved += usize::from(position != place);
            taken.push(position);
            received[2 - position as usize / 8] ^= 1 << (position % 8);
        }
        assert_eq!((after.packet, after.state), (received.to_vec(), state), "{crc:?} {seed}");
    }
    assert!(repeated > 200 && moved > 200, "{repeated} {moved}");
}

/// The simulation by calls of the library itself: make, flips by hand, repair.
#[test]
fn a_simulation_is_made_of_calls() {
    let mut random = Random::new(94);
    for round in 0..60 {
        let generator = GENERATORS[round % GENERATORS.len()];
        let n = reference::degree(generator);
        let tables = reference::tables_of(generator);
        let (step, first) = (&tables.step[..], &tables.first[..]);
        let crc = random.values(generator);
        let (limit, trials) = (random.within(1, 2), random.within(1, 6) as u64);
        let len = random.within((n + 23) / 8, 64);
        let (start, end, field) = fit_place(&mut random, len, n);
        let call = SimulateCall { crc, seed: some_seed(&mut random), start, end, field, limit, trials, step, first };
        let before = lent(&mut random, len);
        let (number, after) = common::simulate(&call, &before);
        assert_eq!(number, 0);

        let mut expected = SimulateLent { counts: vec![0; COUNTS], state: call.seed, ..before };
        for flips in 0..=MOST_FLIPS {
            for _ in 0..trials {
                let make = MakeCall { crc, seed: expected.state, start, end, field };
                let (_, made, state) = common::make(&make, &expected.packet);
                let (positions, state) = reference::draws(8 * len, flips, state);
                expected.packet = reference::flipped(&made, &positions);
                expected.state = state;
                let repair = RepairCall { crc, start, end, field, limit, step, first, packet: &expected.packet };
                let lent = RepairLent { output: expected.output, verdict: vec![0xFF; VERDICT_BYTES] };
                let (_, left) = common::repair(&repair, &lent);
                expected.output = left.output;
                let column = match left.verdict[0] {
                    1 if expected.output == made => 1,
                    kind => [0, 2, 3, 4][usize::from(kind)],
                };
                expected.counts[5 * flips + column] += 1;
            }
        }
        assert_eq!(after, expected, "{crc:?} {limit} {trials} {len}");
    }
}

/// Calls with fewer trials that pass the state on: each goes on where the one before ended, with the output that it left.
#[test]
fn the_state_is_passed_on() {
    let mut random = Random::new(95);
    for generator in [9, 53, 0x107, rangqoda::CCITT] {
        let tables = reference::tables_of(generator);
        let (step, first) = (&tables.step[..], &tables.first[..]);
        let crc = random.values(generator);
        let len = random.within(5, 9);
        let (start, end, field) = fit_place(&mut random, len, reference::degree(generator));
        let mut lent = lent(&mut random, len);
        let mut seed = some_seed(&mut random);
        let mut steps = 0u64;
        let begun = seed;
        for trials in [1, 1, 2, 7, 1, 30] {
            let call = SimulateCall { crc, seed, start, end, field, limit: 2, trials, step, first };
            let (number, after) = compare_simulate(&call, &lent);
            assert_eq!(number, 0);
            steps += trials * (9 * len as u64 + 36);
            seed = after.state;
            lent = after;
        }
        let last = (0..steps).fold(begun, |state, _| state.wrapping_mul(1664525).wrapping_add(1013904223));
        assert_eq!(seed, last, "a step for each byte and each draw");
    }
}

/// The output is the last repair's, not the first one's, and nothing else writes it. So there are simulations after which it is as it
/// was lent, and such whose last trial was no repair though an earlier one was.
#[test]
fn the_output_is_the_last_repair() {
    let mut random = Random::new(96);
    let (mut never, mut earlier, mut several_repairs) = (0, 0, 0);
    for round in 0..300 {
        let generator = [9, 53, 0x107, rangqoda::CCITT][round % 4];
        let tables = reference::tables_of(generator);
        let crc = random.values(generator);
        let (call, len) = some_call(&mut random, crc, &tables, 20_000);
        let before = lent(&mut random, len);
        let (_, after) = compare_simulate(&call, &before);
        let repairs: u32 = after.counts.chunks(5).map(|row| row[1] + row[2]).sum();
        let last = &after.counts[5 * MOST_FLIPS..];
        never += usize::from(repairs == 0 && after.output == before.output);
        earlier += usize::from(repairs > 0 && last[1] + last[2] == 0);
        several_repairs += usize::from(repairs > 1);
        assert_eq!(after.output != before.output, repairs > 0);
    }
    assert!(never > 10 && earlier > 30 && several_repairs > 100, "{never} {earlier} {several_repairs}");
}

/// Every set of faults, and so every two of them: the earliest in the order answers, and nothing that was lent changes.
#[test]
fn simulate_refuses_by_the_first_that_applies() {
    let mut random = Random::new(97);
    let order = [1, 2, 11, 3, 5, 6, 8, 9, 10, 14];
    for broken in Broken::subsets(&order) {
        for _ in 0..8 {
            let degree = random.within(3, 8) as u32;
            let generator = random.generator(degree);
            let n = degree as usize;
            let tables = reference::tables_of(generator);
            let room = random.within(3, 12);
            let len = if broken.has(2) { random.pick(&[0, n / 8, 513, 514, 1000]) } else { room };
            let (mut start, mut end, mut field) = fit_place(&mut random, room, n);
            if broken.has(10) {
                field = unfit_field(&mut random, start, end);
                if random.once_in(4) {
                    (end, field) = (start, random.within(0, room)); // an empty range has no field
                }
            }
            if broken.has(9) {
                (start, end) = unfit_range(&mut random, start, end, (8 * room - n) / 8);
            }
            let (mut step, mut first) = if broken.has(6) {
                spoiled(&mut random, generator, &tables)
            } else {
                (tables.step.clone(), tables.first.clone())
            };
            if broken.has(5) {
                let which = random.below(3);
                if which != 0 {
                    step = unfit_length(&mut random, &step);
                }
                if which != 1 {
                    first = unfit_length(&mut random, &first);
                }
            }
            let mut crc = random.values(generator);
            if broken.has(11) {
                crc = unfit_values(&mut random, crc);
            }
            if broken.has(1) {
                crc.generator = random.pick(&UNFIT_GENERATORS);
            }
            let trials = random.within(1, 3) as u64;
            let call = SimulateCall {
                crc,
                seed: some_seed(&mut random),
                start,
                end,
                field,
                limit: if broken.has(3) { unfit_limit(&mut random) } else { random.within(1, 2) },
                trials: if broken.has(14) { random.pick(&UNFIT_TRIALS) } else { trials },
                step: &step,
                first: &first,
            };
            let mut lent = lent(&mut random, len);
            if broken.has(8) {
                let which = random.below(3);
                if which != 0 {
                    lent.output.resize(random.pick(&[len + 1, len.max(1) - 1, 2 * len + 3, len + 256]), 0xEE);
                }
                if lent.output.len() == len || which != 1 {
                    lent.counts.resize(random.pick(&UNFIT_COUNTS), 0xEEEE);
                }
            }
            let (number, _) = compare_simulate(&call, &lent);
            assert_eq!(number, broken.first(&order), "{call:?} {lent:?}");
        }
    }
}

/// Numbers of counts that are refused.
const UNFIT_COUNTS: [usize; 8] = [0, 1, 5, 9, COUNTS - 1, COUNTS + 1, COUNTS + 5, 2 * COUNTS];

/// Numbers of trials that are refused. Some would be accepted if they were cut to fewer bits.
const UNFIT_TRIALS: [u64; 10] =
    [0, 65_536, 65_537, 65_538, 1 << 31, 1 << 32, (1 << 32) + 1, (1 << 32) + 65_535, 1 << 63, u64::MAX];

/// A simulation of three bytes that is accepted, with its tables.
fn small(tables: &Tables) -> SimulateCall<'_> {
    SimulateCall {
        crc: Crc { generator: 53, init: 31, xorout: 9 },
        seed: 7,
        start: 0,
        end: 2,
        field: 0,
        limit: 1,
        trials: 2,
        step: &tables.step,
        first: &tables.first,
    }
}

#[test]
fn every_number_of_counts_but_one_is_refused() {
    let mut random = Random::new(98);
    let tables = reference::tables_of(53);
    let call = small(&tables);
    let fit = lent(&mut random, 3);
    for counts in (0..100).chain(UNFIT_COUNTS) {
        let mut before = fit.clone();
        before.counts.resize(counts, 0xEEEE);
        assert_eq!(compare_simulate(&call, &before).0, if counts == 45 { 0 } else { 8 });
    }
    for output in (0..20).chain([256 + 3, 65536 + 3]) {
        let before = SimulateLent { output: vec![0xEE; output], ..fit.clone() };
        assert_eq!(compare_simulate(&call, &before).0, if output == 3 { 0 } else { 8 });
    }
}

#[test]
fn trials_from_1_to_65535() {
    let mut random = Random::new(99);
    let tables = reference::tables_of(53);
    let call = small(&tables);
    let before = lent(&mut random, 3);
    for trials in UNFIT_TRIALS {
        assert_eq!(compare_simulate(&SimulateCall { trials, ..call.clone() }, &before).0, 14);
    }
    for trials in [1, 255, 256, 257, 65_535] {
        let (number, after) = compare_simulate(&SimulateCall { trials, ..call.clone() }, &before);
        assert_eq!(number, 0);
        hold_the_rows_to_the_rules(&after.counts, 1, trials);
    }
}

#[test]
fn huge_numbers_are_refused() {
    let mut random = Random::new(100);
    let tables = reference::tables_of(53);
    let call = small(&tables);
    let before = lent(&mut random, 3);
    let number = |call: SimulateCall<'_>| compare_simulate(&call, &before).0;
    for huge in HUGE {
        assert_eq!(number(SimulateCall { start: huge, ..call.clone() }), 9);
        assert_eq!(number(SimulateCall { end: huge, ..call.clone() }), 9);
        assert_eq!(number(SimulateCall { start: huge, end: huge, ..call.clone() }), 9);
        assert_eq!(number(SimulateCall { field: huge, ..call.clone() }), 10);
        assert_eq!(number(SimulateCall { limit: huge, ..call.clone() }), 3);
        assert_eq!(number(SimulateCall { trials: huge as u64, ..call.clone() }), 14);
        for (generator, init, xorout, expected) in
            [(huge as u64, 0, 0, 1), (53, huge as u64, 0, 11), (53, 0, huge as u64, 11)]
        {
            assert_eq!(number(SimulateCall { crc: Crc { generator, init, xorout }, ..call.clone() }), expected);
        }
    }
}

/// An accepted range without bytes has no field to stamp, wherever it stands and whatever is given for the field.
#[test]
fn empty_ranges_are_refused() {
    let mut random = Random::new(101);
    for (generator, len) in [(9, 3), (53, 4), (0x107, 5), (rangqoda::CCITT, 6)] {
        let n = reference::degree(generator);
        let tables = reference::tables_of(generator);
        let (step, first) = (&tables.step[..], &tables.first[..]);
        let crc = random.values(generator);
        let before = lent(&mut random, len);
        for place in 0..len + 2 {
            let expected = if 8 * place <= 8 * len - n { 10 } else { 9 };
            for field in (0..len + 2).chain(HUGE) {
                for trials in [0, 1] {
                    let call =
                        SimulateCall { crc, seed: 7, start: place, end: place, field, limit: 1, trials, step, first };
                    assert_eq!(compare_simulate(&call, &before).0, expected, "{place} {field}");
                }
            }
        }
    }
}

/// The wrapper: the counts by their names, the rows by their number, the state, and the two slices that it was lent.
#[test]
fn the_wrapper_simulates() {
    let mut random = Random::new(102);
    let mut other_rows = 0;
    for round in 0..120 {
        let generator = GENERATORS[round % GENERATORS.len()];
        let tables = rangqoda::Tables::new(generator).unwrap();
        let right = reference::tables_of(generator);
        let crc = random.values(generator);
        let (call, len) = some_call(&mut random, crc, &right, 20_000);
        let before = lent(&mut random, len);
        let (number, after) = common::simulate(&call, &before);
        assert_eq!(number, 0);

        let SimulateCall { seed, start, end, field, limit, trials, .. } = call;
        for by_tables in [false, true] {
            let (mut packet, mut output) = (before.packet.clone(), before.output.clone());
            let tried = if by_tables {
                tables.simulate(crc, seed, start..end, field, limit, trials, &mut packet, &mut output).unwrap()
            } else {
                let lent = tables.as_slices();
                rangqoda::simulate(crc, seed, start..end, field, limit, trials, lent, &mut packet, &mut output).unwrap()
            };
            assert_eq!((&packet, &output), (&after.packet, &after.output));
            assert_eq!(tried.state, after.state);
            assert_eq!(tried.rows.len(), MOST_FLIPS + 1);
            for (flips, row) in tried.rows.iter().enumerate() {
                let rangqoda::Counts { intact, repaired_to_made, repaired_otherwise, several, none } = *row;
                let five = [intact, repaired_to_made, repaired_otherwise, several, none];
                assert_eq!(five, after.counts[5 * flips..5 * flips + 5]);
                assert_eq!(row.total(), trials);
            }
            let distinct: BTreeSet<&[u32]> = after.counts.chunks(5).collect();
            other_rows += usize::from(distinct.len() > 4);
        }
    }
    assert!(other_rows > 50, "{other_rows}");
    let most = u32::MAX;
    let counts =
        rangqoda::Counts { intact: most, repaired_to_made: most, repaired_otherwise: most, several: most, none: most };
    assert_eq!(counts.total(), 5 * u64::from(most));
    assert_eq!(rangqoda::Counts::default().total(), 0);
}
