//! The call that builds tables.

use crate::common::{self, Built, Random, UNFIT_GENERATORS, UNSET};
use crate::reference;

fn junk(random: &mut Random, step: usize, first: usize) -> Built {
    let mut numbers = |len: usize| (0..len).map(|_| random.next() as u16).collect();
    Built { step: numbers(step), first: numbers(first), period: UNSET }
}

fn compare_tables(generator: u64, before: &Built) {
    let mut after = before.clone();
    let number = match reference::tables(generator, &mut after.step, &mut after.first) {
        Ok(period) => {
            after.period = period;
            0
        }
        Err(number) => number,
    };
    let found = common::tables(generator, before);
    assert!(found == (number, after), "generator {generator}: {}, expected {number}", found.0);
}

#[test]
fn tables_of_every_generator_to_degree_9_and_some_above() {
    let mut random = Random::new(6);
    let mut generators: Vec<u64> = (8..1024).filter(|generator| generator % 2 == 1).collect();
    for degree in 10..=16 {
        // all powers leave remainders that no other power below 2^n - 1 does, or few do: x^n + 1 has period n
        generators.push(1 << degree | 1);
        generators.extend((0..10).map(|_| random.generator(degree)));
    }
    generators.extend([rangqoda::CCITT, 0x18005, 0x1FFFF, 0x10001]);
    for generator in generators {
        let entries = 1 << reference::degree(generator);
        compare_tables(generator, &junk(&mut random, entries, entries));
    }
}

#[test]
fn tables_refuse_unfit_generators_and_lengths() {
    let mut random = Random::new(7);
    for generator in UNFIT_GENERATORS {
        for len in [0, 8, 32, 65536] {
            compare_tables(generator, &junk(&mut random, len, len));
        }
    }
    for _ in 0..500 {
        let degree = random.within(3, 12) as u32;
        let generator = random.generator(degree);
        let entries = 1usize << degree;
        let mut len = || random.pick(&[0, 1, entries / 2, entries - 1, entries, entries + 1, 2 * entries]);
        let (step, first) = (len(), len());
        compare_tables(generator, &junk(&mut random, step, first));
    }
}
