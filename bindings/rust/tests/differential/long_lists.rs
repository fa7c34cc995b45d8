//! Lists of several MiB, read to their end by the wrapper. A short list taken for the whole one is what nobody would notice.

use crate::reference;
use rangqoda::{Mark, Pattern, Tables};

/// How many sets of at most `limit` positions leave the syndrome, without listing any: position by position, the sets of each
/// size and remainder among those below.
fn counted(generator: u64, length: usize, limit: usize, syndrome: u64) -> u64 {
    let entries = 1 << reference::degree(generator);
    let mut sets = vec![vec![0; entries]; limit + 1];
    sets[0][0] = 1;
    for position in 0..length {
        let power = reference::power(position, generator) as usize;
        for size in (0..limit).rev() {
            for left in 0..entries {
                let without = sets[size][left];
                sets[size + 1][left ^ power] += without;
            }
        }
    }
    sets.iter().map(|of_one_size| of_one_size[syndrome as usize]).sum()
}

/// Generator, length, limit and syndrome of long lists, of up to two, three and four positions, with an odd and with an even number
/// of ones.
const LISTS: [(u64, usize, usize, u64); 4] = [(11, 4096, 2, 5), (11, 330, 3, 6), (9, 3000, 2, 3), (15, 80, 4, 6)];

/// Each pattern is one of the list, and comes after the one before; and they are as many as the list has. So none is missing.
#[test]
fn a_list_of_several_mib_is_whole() {
    for (generator, length, limit, syndrome) in LISTS {
        let powers: Vec<u64> = (0..length).map(|position| reference::power(position, generator)).collect();
        let tables = Tables::new(generator).unwrap();
        let (mut found, mut bytes) = (0, 0);
        let mut last: Option<Pattern> = None;
        let mut patterns = tables.patterns(length, limit, syndrome).unwrap();
        for pattern in &mut patterns {
            let positions = pattern.as_slice();
            assert!(positions.len() <= limit && positions.windows(2).all(|two| two[0] < two[1]));
            assert_eq!(positions.iter().fold(0, |left, &position| left ^ powers[usize::from(position)]), syndrome);
            if let Some(last) = last {
                assert!(reference::order(last.as_slice(), positions).is_lt(), "{last:?} {pattern:?}");
            }
            last = Some(pattern);
            found += 1;
            bytes += 1 + 2 * positions.len();
        }
        assert_eq!(found, counted(generator, length, limit, syndrome));
        assert!(bytes > 3 << 20, "{bytes} bytes are too few to show anything");
        assert_eq!((patterns.next(), patterns.next()), (None, None));
    }
}

/// The same patterns, one by one, as trying every set gives; and the same by pages of a size of the caller's.
#[test]
fn a_list_of_several_mib_is_that_of_all_sets() {
    for (generator, length, limit, syndrome) in LISTS {
        let list = reference::list(generator, length, limit, syndrome);
        assert_eq!(list.len() as u64, counted(generator, length, limit, syndrome));
        let tables = Tables::new(generator).unwrap();
        let found = tables.patterns(length, limit, syndrome).unwrap();
        assert!(found.map(|pattern| pattern.as_slice().to_vec()).eq(list.iter().cloned()));

        let mut output = vec![0; 100_003];
        let (mut mark, mut read) = (Mark::Start, 0);
        while mark != Mark::Ended {
            let page = tables.page(length, limit, syndrome, mark, &mut output).unwrap();
            for pattern in page.patterns(&output) {
                assert_eq!(pattern.as_slice(), list[read]);
                read += 1;
            }
            mark = page.next;
        }
        assert_eq!(read, list.len());
    }
}
