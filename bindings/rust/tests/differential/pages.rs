//! Pages, one by one and joined.

use crate::common::{self, PageCall, PageLent, Random, HUGE, UNFIT_GENERATORS};
use crate::inputs::{
    some_length, some_mark, some_output, some_settings, some_syndrome, spoiled, unfit_length, unfit_length_in_bits,
    unfit_limit, unfit_mark, Broken, Settings,
};
use crate::reference::{self, Mark, MOST_POSITIONS, RECORD_BYTES};

fn expected_page(call: &PageCall<'_>, before: &PageLent) -> (u32, PageLent) {
    let of = reference::PageOf {
        generator: call.generator,
        length: call.length,
        limit: call.limit,
        syndrome: call.syndrome,
        step: call.step,
        first: call.first,
        // bytes that are no mark are refused as an unfit pattern is, by 7
        mark: &reference::read_mark(&before.mark).unwrap_or_else(|| Mark::After(vec![0, 0])),
    };
    let mut after = before.clone();
    match reference::page(&of, &mut after.output) {
        Ok((used, written, next)) => {
            after.used = used;
            after.written = written;
            after.mark = reference::mark_bytes(&next);
            (0, after)
        }
        Err(number) => (number, before.clone()),
    }
}

/// Compares a page and gives what was found.
fn compared_page(call: &PageCall<'_>, before: &PageLent) -> (u32, PageLent) {
    let expected = expected_page(call, before);
    let found = common::page(call, before);
    assert!(
        found == expected,
        "generator {}, L {}, N {}, syndrome {}, mark {:?}, {} bytes: {:?} but expected {:?}",
        call.generator,
        call.length,
        call.limit,
        call.syndrome,
        before.mark,
        before.output.len(),
        found,
        expected
    );
    found
}

fn compare_page(call: &PageCall<'_>, before: &PageLent) -> u32 {
    compared_page(call, before).0
}

/// Start, Ended, and After each pattern that fits, listed or not.
fn every_fit_mark(length: usize, limit: usize) -> Vec<Mark> {
    let mut marks = vec![Mark::Start, Mark::Ended];
    reference::every_set(length as u16, limit, &mut |pattern| marks.push(Mark::After(pattern.to_vec())));
    marks
}

/// Compares a page from each of the marks, all of them fit. Each output has the length that `len` gives.
fn compare_pages<'a>(settings: &Settings, marks: impl IntoIterator<Item = &'a Mark>, mut len: impl FnMut() -> usize) {
    for mark in marks {
        let lent = PageLent::new(reference::mark_bytes(mark), vec![0xCC; len()]);
        assert_eq!(compare_page(&settings.call(), &lent), 0);
    }
}

/// Compares the pages of so many bytes from the start to the end, and holds their records, joined, to the list's.
fn compare_joined(settings: &Settings, len: usize) {
    let list = reference::list(settings.generator, settings.length, settings.limit, settings.syndrome);
    let whole: Vec<u8> = list.iter().flat_map(|pattern| reference::record(pattern)).collect();
    let mut mark = reference::mark_bytes(&Mark::Start);
    let mut joined: Vec<u8> = Vec::new();
    while mark != reference::mark_bytes(&Mark::Ended) {
        let (number, after) = compared_page(&settings.call(), &PageLent::new(mark, vec![0xCC; len]));
        assert_eq!(number, 0);
        joined.extend(&after.output[..after.used]);
        mark = after.mark;
    }
    assert_eq!(joined, whole);
}

/// Whether the list would stand in another order if spans did not count.
fn spans_matter(settings: &Settings) -> bool {
    let list = reference::list(settings.generator, settings.length, settings.limit, settings.syndrome);
    list.windows(2).any(|two| two[0].len() == two[1].len() && two[0] > two[1])
}

#[test]
fn page_by_page_calls_of_every_kind() {
    let mut random = Random::new(8);
    let mut refused = [0; 9];
    for _ in 0..2_500 {
        let settings = some_settings(&mut random, 60_000);
        let list = reference::list(settings.generator, settings.length, settings.limit, settings.syndrome);
        for _ in 0..4 {
            let mark = some_mark(&mut random, &list, settings.length, settings.limit);
            let lent = PageLent::new(mark, some_output(&mut random));
            refused[compare_page(&settings.call(), &lent) as usize] += 1;
        }
    }
    assert!(refused[0] > 5_000 && refused[7] > 100 && refused[8] > 100, "{refused:?}");
}

#[test]
fn page_over_long_lists() {
    let mut random = Random::new(9);
    for (generator, length, limit) in [
        (rangqoda::CCITT, 4096, 1),
        (rangqoda::CCITT, 4096, 2),
        (rangqoda::CCITT, 4095, 2),
        (rangqoda::CCITT, 300, 3),
        (rangqoda::CCITT, 110, 4),
        (0x18005, 4096, 2),
        (0x10001, 4096, 2), // period 16
        (0x1FFFF, 2000, 2),
        (0x8003, 4096, 2),
        (9, 4096, 1),
        (9, 300, 2), // period 3
        (11, 250, 2),
        (53, 120, 3),
        (53, 50, 4),
        (0x211, 100, 4),
    ] {
        let syndrome = some_syndrome(&mut random, generator, length, limit);
        let tables = reference::tables_of(generator);
        let settings = Settings { generator, length, limit, syndrome, tables };
        let list = reference::list(generator, length, limit, syndrome);
        let whole: usize = list.iter().map(|pattern| 1 + 2 * pattern.len()).sum();
        for len in [0, whole, whole.max(1) - 1, whole + 1, whole + 100] {
            let output = random.bytes(len.max(RECORD_BYTES));
            assert_eq!(compare_page(&settings.call(), &PageLent::new(reference::mark_bytes(&Mark::Start), output)), 0);
        }
        for _ in 0..40 {
            let count = random.within(0, limit);
            let mark = reference::mark_bytes(&Mark::After(random.positions(count, length)));
            let lent = PageLent::new(mark, some_output(&mut random));
            compare_page(&settings.call(), &lent);
        }
    }
}

#[test]
fn page_from_every_mark_of_a_short_length() {
    let mut random = Random::new(10);
    for (generator, length, limit) in [(9, 9, MOST_POSITIONS), (53, 8, MOST_POSITIONS), (13, 20, 2), (0x211, 17, 2)] {
        let tables = reference::tables_of(generator);
        for syndrome in [0, 1, 3, 6, random.below(1 << reference::degree(generator))] {
            let settings = Settings { generator, length, limit, syndrome, tables: tables.clone() };
            let mut marks = vec![Mark::Start, Mark::Ended, Mark::After(vec![])];
            for a in 0..length as u16 + 2 {
                marks.push(Mark::After(vec![a]));
                for b in 0..length as u16 + 2 {
                    marks.push(Mark::After(vec![a, b]));
                    marks.extend((0..3).map(|_| {
                        let c = random.within(0, length + 1) as u16;
                        let d = random.within(0, length + 1) as u16;
                        Mark::After(if random.once_in(2) { vec![a, b, c] } else { vec![a, b, c, d] })
                    }));
                }
            }
            for mark in marks {
                let output = random.bytes(40);
                compare_page(&settings.call(), &PageLent::new(reference::mark_bytes(&mark), output));
            }
        }
    }
}

/// Every accepted generator of degree 3 to 6 and every syndrome, 0 too: a page from every mark that fits. Where the generator has an
/// even number of ones, half of the calls after a pattern have one of a count that parity rules out.
#[test]
fn page_from_every_mark_for_every_syndrome() {
    let mut random = Random::new(22);
    let (mut of_one_parity, mut of_both) = (0, 0);
    for generator in (9..128).step_by(2) {
        let n = reference::degree(generator);
        let length = n + 2;
        let tables = reference::tables_of(generator);
        let list = |syndrome| reference::list(generator, length, MOST_POSITIONS, syndrome).to_vec();
        let marks = every_fit_mark(length, MOST_POSITIONS);
        for syndrome in 0..1 << n {
            let odd = list(syndrome).iter().filter(|pattern| pattern.len() % 2 == 1).count();
            let even = list(syndrome).len() - odd;
            if generator.count_ones() % 2 == 0 {
                assert_eq!(if syndrome.count_ones() % 2 == 0 { odd } else { even }, 0);
                of_one_parity += 1;
            } else if odd > 0 && even > 0 {
                of_both += 1;
            }
            let settings = Settings { generator, length, limit: MOST_POSITIONS, syndrome, tables: tables.clone() };
            compare_pages(&settings, &marks, || random.within(RECORD_BYTES, 60));
        }
    }
    assert!(of_one_parity > 1_000 && of_both > 1_000, "{of_one_parity} {of_both}");
}

/// Generators with an even and with an odd number of ones, of periods from 3 to 15. Every length from the least to two past the period,
/// every limit and every syndrome: a page from every mark that fits.
#[test]
fn page_from_every_mark_across_the_period() {
    let mut random = Random::new(30);
    let (mut pages, mut by_span) = (0, 0);
    for generator in [9, 15, 0x17, 53, 0x55, 11, 13, 0x1F, 25, 0x49] {
        let n = reference::degree(generator);
        let tables = reference::tables_of(generator);
        for length in n + 1..=n.max(tables.period as usize) + 2 {
            for limit in 1..=MOST_POSITIONS {
                let marks = every_fit_mark(length, limit);
                for syndrome in 0..1 << n {
                    let settings = Settings { generator, length, limit, syndrome, tables: tables.clone() };
                    compare_pages(&settings, &marks, || random.within(RECORD_BYTES, 60));
                    pages += marks.len();
                    by_span += usize::from(spans_matter(&settings));
                }
            }
        }
    }
    assert!(pages > 1_000_000 && by_span > 2_000, "{pages} {by_span}");
}

/// Every output of 9 to 40 bytes and every syndrome: a page from every mark that fits, and all pages from the start, joined.
#[test]
fn pages_of_every_size() {
    let mut by_span = 0;
    for (generator, length, limit) in [(13, 8, MOST_POSITIONS), (0x17, 9, 3), (53, 8, 3), (53, 10, 2), (25, 17, 2)] {
        let tables = reference::tables_of(generator);
        let marks = every_fit_mark(length, limit);
        for syndrome in 0..1 << reference::degree(generator) {
            let settings = Settings { generator, length, limit, syndrome, tables: tables.clone() };
            by_span += usize::from(spans_matter(&settings));
            for len in RECORD_BYTES..=40 {
                compare_pages(&settings, &marks, || len);
                compare_joined(&settings, len);
            }
        }
    }
    assert!(by_span > 50, "{by_span}");
}

/// Four positions in up to 24 bits, by generators of degree 5 and 6 with an even and with an odd number of ones: some marks for every
/// length and syndrome, every mark for one syndrome of 24 bits, and the pages of each syndrome of 24 bits, joined.
#[test]
fn page_of_four_positions_in_24_bits() {
    let mut random = Random::new(31);
    for generator in [53, 61, 0x47] {
        let n = reference::degree(generator);
        let tables = reference::tables_of(generator);
        let settings = |length, syndrome| Settings { generator, length, limit: 4, syndrome, tables: tables.clone() };
        for length in 18..=24 {
            let marks = every_fit_mark(length, 4);
            for syndrome in 0..1 << n {
                let some: Vec<Mark> = (0..100).map(|_| random.pick(&marks)).collect();
                compare_pages(&settings(length, syndrome), &some, || random.within(RECORD_BYTES, 300));
            }
        }
        let syndrome = random.below(1 << n);
        compare_pages(&settings(24, syndrome), &every_fit_mark(24, 4), || random.within(RECORD_BYTES, 60));
        for syndrome in 0..1 << n {
            assert!(spans_matter(&settings(24, syndrome)));
            compare_joined(&settings(24, syndrome), random.within(RECORD_BYTES, 300));
        }
    }
}

/// A sequence of page calls: one list, one mark that only accepted calls move, tables and outputs that differ from call to
/// call, refused calls among them.
#[test]
fn pages_joined_are_the_list() {
    let mut random = Random::new(11);
    let mut refusals = 0;
    let mut long = 0;
    for round in 0..700 {
        let settings = some_settings(&mut random, if round % 10 == 0 { 400_000 } else { 30_000 });
        let list = reference::list(settings.generator, settings.length, settings.limit, settings.syndrome);
        // long lists are read in longer pages, so that a round ends
        let longest = RECORD_BYTES + random.within(0, 30) + list.len() / random.within(1, 40);
        let mut mark = reference::mark_bytes(&Mark::Start);
        let mut joined: Vec<u8> = Vec::new();
        let (mut k, mut accepted) = (0, 0);
        let mut further = 3; // calls after the end
        while further > 0 {
            if mark[0] == 0xFF {
                further -= 1;
            }
            let mut call = settings.call();
            let mut output = random.bytes(RECORD_BYTES);
            let len = random.within(RECORD_BYTES, longest);
            output.resize(len, 0xCC);
            let spoilt;
            let expected = match random.below(8) {
                0 => {
                    output.truncate(random.within(0, RECORD_BYTES - 1));
                    8
                }
                1 => {
                    spoilt = spoiled(&mut random, settings.generator, &settings.tables);
                    (call.step, call.first) = (&spoilt.0, &spoilt.1);
                    6
                }
                2 => {
                    spoilt = (unfit_length(&mut random, call.step), unfit_length(&mut random, call.first));
                    (call.step, call.first) = (&spoilt.0, &spoilt.1);
                    output.truncate(random.within(0, RECORD_BYTES));
                    5
                }
                _ => 0,
            };
            let before = PageLent::new(mark.clone(), output);
            let (number, after) = common::page(&call, &before);
            assert_eq!(number, expected);
            if number != 0 {
                refusals += 1;
                assert_eq!(after, before, "a refused page changed something");
                continue;
            }
            accepted += 1;
            let mut due = Vec::new();
            let mut written = 0;
            for pattern in &list[k..] {
                let record = reference::record(pattern);
                if due.len() + record.len() > before.output.len() {
                    break;
                }
                due.extend(record);
                written += 1;
            }
            assert_eq!((after.used, after.written), (due.len(), written as u64));
            assert_eq!(after.output[..due.len()], due);
            assert_eq!(after.output[due.len()..], before.output[due.len()..], "bytes beyond those used changed");
            joined.extend(&after.output[..after.used]);
            k += written;
            let reached = if k == list.len() { Mark::Ended } else { Mark::After(list[k - 1].clone()) };
            assert_eq!(after.mark, reference::mark_bytes(&reached));
            if accepted >= list.len().max(1) {
                assert_eq!(reached, Mark::Ended);
            }
            mark = after.mark;
        }
        let whole: Vec<u8> = list.iter().flat_map(|pattern| reference::record(pattern)).collect();
        assert_eq!(joined, whole);
        long += usize::from(list.len() > 1000);
    }
    assert!(refusals > 1000 && long > 20, "{refusals} {long}");
}

#[test]
fn page_refuses_by_the_first_that_applies() {
    let mut random = Random::new(16);
    let order = [1, 2, 3, 4, 5, 6, 7, 8];
    for broken in Broken::subsets(&order) {
        for _ in 0..24 {
            let degree = random.within(3, 8) as u32;
            let generator = random.generator(degree);
            let n = degree as usize;
            let tables = reference::tables_of(generator);
            let limit = random.within(1, MOST_POSITIONS);
            let length = some_length(&mut random, n + 1, limit, 2_000);
            let syndrome = random.below(1 << n);
            let mark = if broken.has(7) {
                unfit_mark(&mut random, length, limit)
            } else {
                reference::mark_bytes(&Mark::After(random.positions(limit, length)))
            };
            let (mut step, mut first) = if broken.has(6) {
                spoiled(&mut random, generator, &tables)
            } else {
                (tables.step.clone(), tables.first.clone())
            };
            if broken.has(5) {
                let which = random.below(3);
                if which != 0 {
                    step = unfit_length(&mut random, &step);
                }
                if which != 1 {
                    first = unfit_length(&mut random, &first);
                }
            }
            let call = PageCall {
                generator: if broken.has(1) { random.pick(&UNFIT_GENERATORS) } else { generator },
                length: if broken.has(2) { unfit_length_in_bits(&mut random, n) } else { length },
                limit: if broken.has(3) { unfit_limit(&mut random) } else { limit },
                syndrome: if broken.has(4) {
                    random.pick(&[1 << n, (1 << n) + 1, 1 << 32, (1 << 32) | syndrome, u64::MAX, 1 << 63])
                } else {
                    syndrome
                },
                step: &step,
                first: &first,
            };
            let len = if broken.has(8) { random.within(0, RECORD_BYTES - 1) } else { random.within(RECORD_BYTES, 60) };
            let lent = PageLent::new(mark, random.bytes(len));
            assert_eq!(compare_page(&call, &lent), broken.first(&order), "{call:?} {lent:?}");
        }
    }
}

#[test]
fn huge_numbers_are_refused() {
    let tables = reference::tables_of(rangqoda::CCITT);
    let (step, first) = (&tables.step[..], &tables.first[..]);
    for huge in HUGE {
        let call = PageCall { generator: rangqoda::CCITT, length: 64, limit: 2, syndrome: 7, step, first };
        let lent = PageLent::new(reference::mark_bytes(&Mark::Start), vec![0; 64]);
        assert_eq!(compare_page(&PageCall { length: huge, ..call.clone() }, &lent), 2);
        assert_eq!(compare_page(&PageCall { limit: huge, ..call.clone() }, &lent), 3);
        assert_eq!(compare_page(&PageCall { syndrome: huge as u64, ..call.clone() }, &lent), 4);
        assert_eq!(compare_page(&PageCall { generator: huge as u64, ..call.clone() }, &lent), 1);
    }
}
