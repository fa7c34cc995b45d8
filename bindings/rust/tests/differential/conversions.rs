//! The wrapper's conversions to bytes and back, and its texts.

use crate::common::{self, PageCall, PageLent, Random};
use crate::reference::{self, MARK_BYTES, MOST_FLIPS, MOST_POSITIONS, RECORD_BYTES, VERDICT_BYTES};
use rangqoda::{Mark, Page, Pattern, Refusal, Verdict};
use std::collections::BTreeSet;
use std::panic::catch_unwind;

fn plain_mark(mark: Mark) -> reference::Mark {
    match mark {
        Mark::Start => reference::Mark::Start,
        Mark::Ended => reference::Mark::Ended,
        Mark::After(pattern) => reference::Mark::After(pattern.as_slice().to_vec()),
    }
}

fn plain_verdict(verdict: Verdict) -> reference::Verdict {
    match verdict {
        Verdict::Intact => reference::Verdict::Intact,
        Verdict::Repaired(pattern) => reference::Verdict::Repaired(pattern.as_slice().to_vec()),
        Verdict::Several { count, pattern } => reference::Verdict::Several(count, pattern.as_slice().to_vec()),
        Verdict::None => reference::Verdict::None,
    }
}

/// Positions at the edges of their two bytes, and any.
fn some_positions(random: &mut Random, count: usize) -> Vec<u16> {
    let any = random.next() as u16;
    (0..count).map(|_| random.pick(&[0, 1, 255, 256, 4095, 4096, 65534, 65535, any])).collect()
}

#[test]
fn the_lengths_are_the_rules() {
    assert_eq!(rangqoda::MOST_POSITIONS, MOST_POSITIONS);
    assert_eq!(rangqoda::RECORD_BYTES, RECORD_BYTES);
    assert_eq!(rangqoda::MARK_BYTES, MARK_BYTES);
    assert_eq!(rangqoda::VERDICT_BYTES, VERDICT_BYTES);
    assert_eq!(rangqoda::MOST_FLIPS, MOST_FLIPS);
}

#[test]
fn patterns_of_every_count() {
    let mut random = Random::new(80);
    for count in (0..2 * MOST_POSITIONS).chain([255, 256, 257, 65536 + 2]) {
        let positions = some_positions(&mut random, count);
        let found = Pattern::new(&positions);
        assert_eq!(found.is_some(), count <= MOST_POSITIONS, "{count}");
        if let Some(pattern) = found {
            assert_eq!((pattern.as_slice(), pattern.as_ref()), (&positions[..], &positions[..]));
            assert_eq!((pattern.len(), pattern.is_empty()), (count, count == 0));
            assert_eq!(pattern == Pattern::EMPTY, count == 0);
        }
    }
    assert_eq!(Pattern::default(), Pattern::EMPTY);
    assert_eq!(format!("{:?} {:?}", Pattern::EMPTY, Pattern::new(&[3, 8]).unwrap()), "{} {3, 8}");
}

/// Every set of at most four of these positions.
fn sets_of(positions: &[u16]) -> Vec<Vec<u16>> {
    let mut sets = Vec::new();
    reference::every_set(positions.len() as u16, MOST_POSITIONS, &mut |set| {
        sets.push(set.iter().map(|&place| positions[usize::from(place)]).collect());
    });
    sets
}

/// Every two sets of the lowest positions and of those at the edges of their two bytes.
#[test]
fn patterns_compare_as_the_list_orders_them() {
    let mut sets = sets_of(&[0, 1, 2, 3, 4, 5, 6, 7, 8]);
    sets.extend(sets_of(&[0, 1, 255, 256, 4095, 4096, 65534, 65535]));
    for a in &sets {
        let first = Pattern::new(a).unwrap();
        assert_eq!(first.span(), reference::span(a), "{a:?}");
        for b in &sets {
            let second = Pattern::new(b).unwrap();
            assert_eq!(first.cmp(&second), reference::order(a, b), "{a:?} {b:?}");
            assert_eq!(first.partial_cmp(&second), Some(first.cmp(&second)));
            assert_eq!(first == second, a == b);
        }
    }
}

/// Every row of so many positions below `bound`, ascending or not.
fn rows_of(count: usize, bound: u16) -> impl Iterator<Item = Vec<u16>> {
    let places = move |number| (0..count as u32).map(move |place| number / bound.pow(place) % bound);
    (0..bound.pow(count as u32)).map(move |number| places(number).collect())
}

/// Positions that do not ascend, which no list has: the last minus the first is their span, and 0 where the last is lower.
#[test]
fn patterns_that_do_not_ascend_are_ordered_too() {
    let rows: Vec<Vec<u16>> = (0..=MOST_POSITIONS).flat_map(|count| rows_of(count, 4)).collect();
    let span = |row: &[u16]| match row {
        [first, .., last] if first < last => last - first,
        _ => 0,
    };
    for a in &rows {
        let first = Pattern::new(a).unwrap();
        assert_eq!(first.span(), span(a), "{a:?}");
        for b in &rows {
            let second = Pattern::new(b).unwrap();
            assert_eq!(first.cmp(&second), (a.len(), span(a), a).cmp(&(b.len(), span(b), b)), "{a:?} {b:?}");
            assert_eq!(first == second, a == b);
        }
    }
}

/// Every first byte, with any bytes behind it: the wrapper reads a mark just where the rules do, and where the library does not refuse
/// it by 7; and what it writes is the rules' bytes, which it reads back.
#[test]
fn marks_of_every_first_byte() {
    let mut random = Random::new(82);
    let tables = reference::tables_of(rangqoda::FIVE);
    let (step, first) = (&tables.step[..], &tables.first[..]);
    let call = PageCall { generator: rangqoda::FIVE, length: 24, limit: MOST_POSITIONS, syndrome: 3, step, first };
    let mut marks = 0;
    for round in 0..256 * 40 {
        let mut bytes = [0; MARK_BYTES];
        bytes[0] = (round % 256) as u8;
        for (place, position) in bytes[1..].chunks_mut(2).zip(random.positions(MOST_POSITIONS, 24)) {
            place.copy_from_slice(&position.to_be_bytes());
        }
        let (number, _) = common::page(&call, &PageLent::new(bytes.to_vec(), vec![0; 64]));
        assert!(number == 0 || number == 7);
        if random.once_in(2) {
            bytes[1..].copy_from_slice(&random.bytes(MARK_BYTES - 1));
        }
        let found = Mark::from_bytes(&bytes);
        assert_eq!(found.map(plain_mark), reference::read_mark(&bytes), "{bytes:02X?}");
        assert_eq!(found.is_some(), number == 0, "{bytes:02X?}");
        if let Some(mark) = found {
            marks += 1;
            assert_eq!(mark.to_bytes()[..], reference::mark_bytes(&plain_mark(mark)), "{mark:?}");
            assert_eq!(Mark::from_bytes(&mark.to_bytes()), Some(mark));
        }
    }
    assert_eq!(marks, (2 + 1 + MOST_POSITIONS) * 40);
}

#[test]
fn marks_of_every_kind_are_written() {
    let mut random = Random::new(83);
    for round in 0..10_000 {
        let positions = some_positions(&mut random, round % (MOST_POSITIONS + 1));
        for mark in [Mark::Start, Mark::Ended, Mark::After(Pattern::new(&positions).unwrap())] {
            let bytes = mark.to_bytes();
            assert_eq!(bytes[..], reference::mark_bytes(&plain_mark(mark)));
            assert_eq!(Mark::from_bytes(&bytes), Some(mark));
        }
    }
}

/// Every kind with every count of positions, with any bytes behind them, both ways.
#[test]
fn verdicts_of_every_kind_and_count_of_positions() {
    let mut random = Random::new(84);
    let mut verdicts = 0;
    for (kind, positions) in (0..=255).flat_map(|kind| (0..=255).map(move |positions| (kind, positions))) {
        let mut bytes = [0; VERDICT_BYTES];
        bytes.copy_from_slice(&random.bytes(VERDICT_BYTES));
        bytes[0] = kind;
        bytes[9] = positions;
        let found = Verdict::from_bytes(&bytes);
        assert_eq!(found.map(plain_verdict), reference::read_verdict(&bytes), "{bytes:02X?}");
        assert_eq!(found.is_some(), kind <= 3 && usize::from(positions) <= MOST_POSITIONS, "{bytes:02X?}");
        if let Some(verdict) = found {
            verdicts += 1;
            assert_eq!(verdict.to_bytes()[..], reference::verdict_bytes(&plain_verdict(verdict)), "{verdict:?}");
            assert_eq!(Verdict::from_bytes(&verdict.to_bytes()), Some(verdict));
        }
    }
    assert_eq!(verdicts, 4 * (1 + MOST_POSITIONS));
}

#[test]
fn verdicts_of_every_kind_are_written() {
    let mut random = Random::new(85);
    for round in 0..10_000 {
        let pattern = Pattern::new(&some_positions(&mut random, round % (MOST_POSITIONS + 1))).unwrap();
        let any = random.next();
        let count = random.pick(&[2, 255, 256, 1 << 32, u64::MAX, any]);
        let kinds = [Verdict::Intact, Verdict::Repaired(pattern), Verdict::Several { count, pattern }, Verdict::None];
        for (kind, verdict) in (0..).zip(kinds) {
            let bytes = verdict.to_bytes();
            assert_eq!(bytes[..], reference::verdict_bytes(&plain_verdict(verdict)));
            assert_eq!(Verdict::from_bytes(&bytes), Some(verdict));
            assert_eq!(common::publish(&bytes), [0, 1, 2, 2][kind]);
        }
    }
}

#[test]
fn each_refusal_has_its_text() {
    let texts = [
        (Refusal::Generator, "refused 1: the generator is even, or its degree is outside 3 to 16"),
        (Refusal::Length, "refused 2: the length is not above the degree, or above 4096 bits"),
        (Refusal::Limit, "refused 3: the error limit is outside 1 to 4"),
        (Refusal::Syndrome, "refused 4: the syndrome does not fit the degree"),
        (Refusal::TableLength, "refused 5: a table has the wrong number of entries"),
        (Refusal::TableEntry, "refused 6: a table entry is wrong"),
        (Refusal::Mark, "refused 7: the mark's pattern is unfit"),
        (Refusal::Output, "refused 8: the output has an unfit length"),
        (Refusal::Range, "refused 9: the range ends before its start or reaches into the CRC"),
        (
            Refusal::Field,
            "refused 10: the field is not whole in the range, or not an even number of bytes from its start",
        ),
        (Refusal::Values, "refused 11: the initial or the final value does not fit the degree"),
        (Refusal::BlockShape, "refused 12: the rows or the columns are outside 1 to 64"),
        (Refusal::BlockLength, "refused 13: the input or the output has not as many bytes as rows times columns"),
        (Refusal::Trials, "refused 14: the number of trials is outside 1 to 65535"),
    ];
    assert_eq!(texts.map(|(refusal, _)| refusal), Refusal::ALL);
    for (number, (refusal, text)) in (1..).zip(texts) {
        assert_eq!((refusal.number(), refusal.to_string().as_str()), (number, text));
    }
    assert_eq!(texts.iter().map(|(_, text)| text).collect::<BTreeSet<_>>().len(), 14);
    assert!(Refusal::Limit.to_string().ends_with(&format!("1 to {MOST_POSITIONS}")));
}

/// What a page gives of its output: the patterns, or a panic where the bytes are not as many records.
#[test]
fn the_patterns_of_a_page_are_its_records() {
    let read = |used: usize, written: u64, output: &[u8]| {
        let (page, output) = (Page { used, written, next: Mark::Ended }, output.to_vec());
        catch_unwind(move || page.patterns(&output).map(|pattern| pattern.as_slice().to_vec()).collect::<Vec<_>>()).ok()
    };
    let output = [2, 0, 0, 0, 1, 0, 1, 1, 2, 7, 7];
    assert_eq!(read(9, 3, &output), Some(vec![vec![0, 1], vec![], vec![258]]));
    assert_eq!(read(5, 1, &output), Some(vec![vec![0, 1]]));
    assert_eq!(read(0, 0, &output), Some(vec![]));
    assert_eq!(read(12, 3, &output), None, "fewer bytes than used");
    assert_eq!(read(9, 2, &output), None, "more records than written");
    assert_eq!(read(9, 4, &output), None, "fewer records than written");
    assert_eq!(read(8, 3, &output), None, "a record that is cut");
    let mut long = vec![0; 1000];
    long[0] = MOST_POSITIONS as u8 + 1;
    assert_eq!(read(1 + 2 * (MOST_POSITIONS + 1), 1, &long), None, "more positions than a pattern has");
    long[0] = 200;
    assert_eq!(read(401, 1, &long), None, "200 positions");
}
