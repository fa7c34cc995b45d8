//! Scatter and gather.

use crate::common::{self, Random, Way, HUGE, WAYS};
use crate::inputs::Broken;
use crate::reference;

fn compare_block(way: Way, rows: usize, columns: usize, input: &[u8], output: &[u8]) -> u32 {
    let mut expected = output.to_vec();
    let answer = match way {
        Way::Scatter => reference::scatter(rows, columns, input, &mut expected),
        Way::Gather => reference::gather(rows, columns, input, &mut expected),
    };
    let found = common::rearrange(way, rows, columns, input, output);
    assert_eq!(found, (answer.err().unwrap_or(0), expected), "{way:?} {rows} {columns}");
    found.0
}

/// Every shape up to 8 by 8, and the corners of 64 by 64.
fn some_shapes() -> impl Iterator<Item = (usize, usize)> {
    let small = (1..=8).flat_map(|rows| (1..=8).map(move |columns| (rows, columns)));
    small.chain([(1, 64), (64, 1), (64, 64)])
}

#[test]
fn blocks_of_every_shape_both_ways() {
    let mut random = Random::new(71);
    for rows in 1..=64 {
        for columns in 1..=64 {
            let (input, output) = (random.bytes(rows * columns), random.bytes(rows * columns));
            for (way, back) in [(Way::Scatter, Way::Gather), (Way::Gather, Way::Scatter)] {
                assert_eq!(compare_block(way, rows, columns, &input, &output), 0);
                let (_, stored) = common::rearrange(way, rows, columns, &input, &output);
                assert_eq!(common::rearrange(back, rows, columns, &stored, &output), (0, input.clone()));
            }
        }
    }
}

#[test]
fn blocks_with_a_byte_too_few_or_too_many() {
    let mut random = Random::new(72);
    for (rows, columns) in some_shapes() {
        let right = rows * columns;
        for (input, output) in (right - 1..=right + 1).flat_map(|i| (right - 1..=right + 1).map(move |o| (i, o))) {
            let (input, output) = (random.bytes(input), random.bytes(output));
            let number = if (input.len(), output.len()) == (right, right) { 0 } else { 13 };
            for way in WAYS {
                assert_eq!(compare_block(way, rows, columns, &input, &output), number);
            }
        }
    }
}

/// Runs of stored bytes, at most as many as there are rows, with every byte changed: all of them up to 8 rows, and with 64 rows those of
/// 1, 63 and 64 bytes. One byte more is too many.
#[test]
fn a_lost_run_touches_each_row_at_most_once() {
    let mut random = Random::new(73);
    for (rows, columns) in some_shapes() {
        let input = random.bytes(rows * columns);
        let (_, stored) = common::rearrange(Way::Scatter, rows, columns, &input, &input);
        let most_in_a_row = |run: std::ops::Range<usize>| {
            let mut found = stored.clone();
            found[run.clone()].iter_mut().for_each(|byte| *byte ^= 0x55);
            let (_, restored) = common::rearrange(Way::Gather, rows, columns, &found, &input);
            let differs: Vec<bool> = restored.iter().zip(&input).map(|(a, b)| a != b).collect();
            assert_eq!(differs.iter().filter(|&&differs| differs).count(), run.len());
            differs.chunks(columns).map(|row| row.iter().filter(|&&differs| differs).count()).max()
        };
        for start in 0..stored.len() {
            let lengths = if rows == 64 { vec![1, 63, 64] } else { (1..=rows).collect() };
            for len in lengths.into_iter().filter(|len| start + len <= stored.len()) {
                assert_eq!(most_in_a_row(start..start + len), Some(1), "{rows} {columns} {start} {len}");
            }
            if start + rows < stored.len() {
                assert_eq!(most_in_a_row(start..start + rows + 1), Some(2));
            }
        }
    }
}

#[test]
fn blocks_refuse_by_the_first_that_applies() {
    let mut random = Random::new(74);
    let order = [12, 13];
    for broken in Broken::subsets(&order) {
        for _ in 0..5_000 {
            let (mut rows, mut columns) = (random.within(1, 64), random.within(1, 64));
            if broken.has(12) {
                let other = random.pick(&HUGE);
                let unfit = random.pick(&[0, 65, 66, 128, 256, 257, 65536, 65537, (1 << 32) + 1, other]);
                match random.below(3) {
                    0 => rows = unfit,
                    1 => columns = unfit,
                    _ => (rows, columns) = (unfit, random.pick(&HUGE)),
                }
            }
            // the lengths are the product modulo 2^64, where that is small
            let product = rows.wrapping_mul(columns);
            let right = if product <= 65 * 65 { product } else { 64 };
            let (mut input, mut output) = (right, right);
            if broken.has(13) {
                let wrong = random.pick(&[right + 1, right ^ 1, 2 * right + 1]);
                match random.below(3) {
                    0 => input = wrong,
                    1 => output = wrong,
                    _ => (input, output) = (wrong, wrong),
                }
            }
            let (input, output) = (random.bytes(input), random.bytes(output));
            for way in WAYS {
                assert_eq!(compare_block(way, rows, columns, &input, &output), broken.first(&order));
            }
        }
    }
}
