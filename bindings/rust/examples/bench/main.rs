//! How fast the library is, beside the lookup-table method that a reader would use otherwise (`lookup.rs`) and a
//! table-driven CRC: `cargo run --release --example bench`. Every result is compared before its time is told. For the
//! comparison the method's patterns are put in the library's order, outside all times. All numbers are of one run; a ratio
//! above 1 says that the library is faster.

mod lookup;

use lookup::{Found, Lookup, Reader, Summing, TableCrc};
use rangqoda::{
    catalogue::CRC_16_XMODEM as CRC, make, remainder, seal, stamp, Counts, Mark, Page, Pattern, Simulation, Tables,
    Verdict, CCITT, FIVE, MOST_FLIPS, NO_CHECKSUM, RECORD_BYTES,
};
use std::arch::asm;
use std::ops::Range;
use std::time::{Duration, Instant};

/// The value, from memory that the compiler must suppose to have been read and written. (`std::hint::black_box` is of Rust 1.66.)
#[inline(always)]
fn black_box<T>(mut value: T) -> T {
    // SAFETY: no instruction is made of it.
    unsafe { asm!("/* {} */", in(reg) &mut value, options(nostack, preserves_flags)) };
    value
}

struct Random(u64);

impl Random {
    fn below(&mut self, bound: u64) -> u64 {
        self.0 ^= self.0 << 13;
        self.0 ^= self.0 >> 7;
        self.0 ^= self.0 << 17;
        (self.0 >> 16) % bound
    }

    fn positions(&mut self, count: usize, length: usize) -> Vec<usize> {
        let mut positions = Vec::new();
        while positions.len() < count {
            let position = self.below(length as u64) as usize;
            if !positions.contains(&position) {
                positions.push(position);
            }
        }
        positions
    }
}

/// Runs each of the jobs in turn, `rounds` times, and gives each one's shortest time. `clear` comes before each run and
/// is not timed.
fn race<State>(
    rounds: usize,
    state: &mut State,
    clear: fn(&mut State),
    jobs: &mut [&mut dyn FnMut(&mut State)],
) -> Vec<Duration> {
    let mut best = vec![Duration::MAX; jobs.len()];
    for _ in 0..rounds {
        for (job, best) in jobs.iter_mut().zip(&mut best) {
            clear(state);
            let start = Instant::now();
            job(state);
            *best = start.elapsed().min(*best);
        }
    }
    best
}

fn micros(time: Duration) -> f64 {
    time.as_secs_f64() * 1e6
}

fn ratio(other: Duration, library: Duration) -> f64 {
    other.as_secs_f64() / library.as_secs_f64()
}

/// The part in the whole, in hundredths.
fn share(part: Duration, whole: Duration) -> f64 {
    100.0 * part.as_secs_f64() / whole.as_secs_f64()
}

/// What a call spends on verifying the tables: a page from the mark Ended does that and no more.
fn verifying(tables: &Tables) -> Duration {
    let times = race(
        30,
        &mut [0; RECORD_BYTES],
        |_| (),
        &mut [&mut |output| {
            let _ = black_box(tables.page(17, 1, 1, Mark::Ended, output).unwrap());
        }],
    );
    times[0]
}

/// The syndrome of so many random positions. With CCITT its number of ones is even or odd as theirs is.
fn some_syndrome(random: &mut Random, positions: usize, length: usize) -> u64 {
    let mut packet = vec![0; length / 8];
    for position in random.positions(positions, length) {
        packet[position / 8] ^= 1 << (position % 8);
    }
    remainder(CRC, &packet).unwrap()
}

fn parity(syndrome: u64) -> &'static str {
    ["even", "odd"][syndrome.count_ones() as usize % 2]
}

/// Writes the records of the method's patterns, and gives the bytes used.
fn write_list(
    lookup: &Lookup,
    syndrome: u32,
    length: usize,
    counts: impl Iterator<Item = usize>,
    output: &mut [u8],
) -> usize {
    let mut used = 0;
    lookup.patterns(syndrome, length, counts, &mut |positions| {
        let record = &mut output[used..used + 1 + 2 * positions.len()];
        record[0] = positions.len() as u8;
        for (place, position) in record[1..].chunks_exact_mut(2).zip(positions) {
            place.copy_from_slice(&position.to_be_bytes());
        }
        used += record.len();
    });
    used
}

/// The patterns of so many records in so many bytes.
fn read_list(output: &[u8], used: usize, written: usize) -> Vec<Pattern> {
    Page { used, written: written as u64, next: Mark::Ended }.patterns(output).collect()
}

/// The whole list, in one page and in pages of 64 KiB, beside the method's.
fn lists(random: &mut Random, tables: &Tables, lookup: &Lookup, verifying: Duration) {
    println!("The whole list, as records (CCITT), by the syndrome's number of ones. Milliseconds.");
    println!(
        "    L  N  ones  patterns  one page  verifying tables  64 KiB pages    method  ratio of one page  of 64 KiB pages  \
         method, by parity  ratio of one page"
    );
    let [pair, triple] = [2, 3].map(|positions| some_syndrome(random, positions, 4096));
    let [three, four] = [3, 4].map(|positions| some_syndrome(random, positions, 1024));
    for (length, limit, syndrome, rounds) in
        [(4096, 2, pair, 20), (4096, 3, triple, 7), (1024, 3, three, 7), (1024, 4, three, 7), (1024, 4, four, 3)]
    {
        let patterns = tables.patterns(length, limit, syndrome).unwrap().count();
        let bytes = RECORD_BYTES * patterns.max(1);

        struct State {
            output: Vec<u8>,
            page: Vec<u8>,
            used: [usize; 4],
        }
        let mut state = State { output: vec![0; bytes], page: vec![0; 1 << 16], used: [0; 4] };
        let clear = |state: &mut State| {
            state.output.fill(0);
            state.page.fill(0);
        };
        let mut one_page = |state: &mut State| {
            let page = tables.page(length, limit, syndrome, Mark::Start, &mut state.output).unwrap();
            assert_eq!((page.written, page.next), (patterns as u64, Mark::Ended));
            state.used[0] = page.used;
        };
        let mut pages = |state: &mut State| {
            let mut mark = Mark::Start;
            state.used[1] = 0;
            while mark != Mark::Ended {
                let page = tables.page(length, limit, syndrome, mark, &mut state.page).unwrap();
                state.used[1] += page.used;
                mark = page.next;
            }
        };
        let syndrome = syndrome as u32;
        let mut method = |state: &mut State| {
            state.used[2] = write_list(lookup, syndrome, length, 0..=limit, &mut state.output);
        };
        let mut by_parity = |state: &mut State| {
            let counts = lookup.counts_by_parity(syndrome, limit);
            state.used[3] = write_list(lookup, syndrome, length, counts, &mut state.output);
        };

        // the same records, once the method's are in the library's order
        one_page(&mut state);
        let listed = read_list(&state.output, state.used[0], patterns);
        for (other, way) in [(&mut method as &mut dyn FnMut(&mut State), 2), (&mut by_parity, 3)] {
            clear(&mut state);
            other(&mut state);
            let mut found = read_list(&state.output, state.used[way], patterns);
            found.sort_unstable();
            assert!(found == listed, "the lists differ");
        }

        let times = race(rounds, &mut state, clear, &mut [&mut one_page, &mut pages, &mut method, &mut by_parity]);
        assert!(state.used.iter().all(|&used| used == state.used[0]));
        println!(
            "{length:5}  {limit}  {:>4}  {patterns:8}  {:8.3}  {:15.1}%  {:12.3}  {:8.3}  {:17.3}  {:15.3}  {:17.3}  {:17.3}",
            parity(syndrome.into()),
            micros(times[0]) / 1e3,
            share(verifying, times[0]),
            micros(times[1]) / 1e3,
            micros(times[2]) / 1e3,
            ratio(times[2], times[0]),
            ratio(times[2], times[1]),
            micros(times[3]) / 1e3,
            ratio(times[3], times[0]),
        );
    }
}

/// A page after a mark whose count parity rules out: the first set of three positions, and the first of four.
fn resumed(random: &mut Random, tables: &Tables, lookup: &Lookup, verifying: Duration) {
    println!("A page of 9 bytes after a mark (CCITT, L of 1,024, N of 4). Microseconds.");
    println!("ones  mark           library  verifying tables");
    for (positions, mark) in [(4, &[0, 1, 2][..]), (3, &[0, 1, 2, 3])] {
        let syndrome = some_syndrome(random, positions, 1024);
        let mark = Pattern::new(mark).unwrap();
        let after = Mark::After(mark);

        // the first of the method's patterns that follows the mark in the library's order, if there is one
        let mut next = None;
        lookup.patterns(syndrome as u32, 1024, 0..=4, &mut |positions| {
            let pattern = Pattern::new(positions).unwrap();
            if pattern > mark && next.map_or(true, |earliest| pattern < earliest) {
                next = Some(pattern);
            }
        });
        let page = tables.page(1024, 4, syndrome, after, &mut [0; RECORD_BYTES]).unwrap();
        assert_eq!(page.next, next.map_or(Mark::Ended, Mark::After));

        let times = race(
            7,
            &mut [0; RECORD_BYTES],
            |_| (),
            &mut [&mut |output| {
                let _ = black_box(tables.page(1024, 4, syndrome, after, output).unwrap());
            }],
        );
        println!(
            "{:>4}  {:12}  {:8.1}  {:15.1}%",
            parity(syndrome),
            format!("{:?}", mark.as_slice()),
            micros(times[0]),
            share(verifying, times[0])
        );
    }
}

/// Packets of random bytes, stamped and sealed, with so many bits flipped.
fn damaged(random: &mut Random, packets: usize, len: usize, flips: usize) -> Vec<Vec<u8>> {
    (0..packets)
        .map(|_| {
            let mut packet: Vec<u8> = (0..len).map(|_| random.below(256) as u8).collect();
            stamp(CCITT, 0..len - 2, len - 4, &mut packet).unwrap();
            seal(CRC, &mut packet).unwrap();
            for position in random.positions(flips, 8 * len) {
                packet[position / 8] ^= 1 << (position % 8);
            }
            packet
        })
        .collect()
}

/// The library's verdict in the method's terms. Of the method's patterns that pass, `earliest` comes first in the library's order.
fn same(verdict: Verdict, found: Found, earliest: Option<Pattern>) -> bool {
    match verdict {
        Verdict::Intact => found.intact,
        Verdict::Repaired(pattern) => found.passing == 1 && earliest == Some(pattern),
        Verdict::Several { count, pattern } => found.passing == count && earliest == Some(pattern),
        Verdict::None => !found.intact && found.passing == 0,
    }
}

/// What is repaired: bytes of a packet, limit, bits flipped, number of packets; and in how many rounds.
const REPAIRS: [(usize, usize, usize, usize, usize); 8] = [
    (64, 1, 1, 200, 7),
    (64, 2, 2, 200, 7),
    (64, 3, 3, 100, 7),
    (64, 4, 3, 5, 5),
    (64, 4, 4, 5, 5),
    (512, 1, 1, 200, 7),
    (512, 2, 2, 100, 7),
    (512, 3, 3, 5, 5),
];

/// Repairs a packet into an output.
type Repair<'a> = &'a dyn Fn(&[u8], &mut [u8]);

/// The time that each of three ways to repair takes for all packets.
fn race_repairs(rounds: usize, received: &[Vec<u8>], ways: [Repair<'_>; 3]) -> Vec<Duration> {
    let [mut first, mut second, mut third] = ways.map(|way| {
        move |output: &mut Vec<u8>| {
            for packet in received {
                way(packet, output);
            }
        }
    });
    let clear = |output: &mut Vec<u8>| output.fill(0);
    race(rounds, &mut vec![0; received[0].len()], clear, &mut [&mut first, &mut second, &mut third])
}

/// Holds the library's repairs to the method's.
fn compare_repairs(
    tables: &Tables,
    reader: &Reader,
    range: Range<usize>,
    field: usize,
    limit: usize,
    packet: &[u8],
    summing: Summing,
) {
    let (mut copy, mut other) = (vec![0; packet.len()], vec![0; packet.len()]);
    let verdict = tables.repair(CRC, range.clone(), field, limit, packet, &mut copy).unwrap();
    let found = reader.repair(range.clone(), field, limit, packet, &mut other, summing);
    let mut passing = Vec::new();
    reader.passing(range, field, limit, packet, summing, &mut |positions| passing.extend(Pattern::new(positions)));
    let earliest = passing.into_iter().min();
    assert!(same(verdict, found, earliest) && copy == other, "{verdict:?} {found:?} {earliest:?}");
}

fn repairs(random: &mut Random, tables: &Tables, reader: &Reader, verifying: Duration) {
    println!("Repair of damaged packets (CCITT). The method tries the counts that parity rules out. Packets a second.");
    println!("bytes  N  flipped   library  verifying tables    method     ratio  method, sums corrected     ratio");
    for (len, limit, flips, packets, rounds) in REPAIRS {
        let received = damaged(random, packets, len, flips);
        let (range, field) = (0..len - 2, len - 4);
        for packet in &received {
            compare_repairs(tables, reader, range.clone(), field, limit, packet, Summing::Anew);
            compare_repairs(tables, reader, range.clone(), field, limit, packet, Summing::Corrected);
        }
        let library = |packet: &[u8], output: &mut [u8]| {
            let _ = black_box(tables.repair(CRC, range.clone(), field, limit, packet, output).unwrap());
        };
        let anew = |packet: &[u8], output: &mut [u8]| {
            black_box(reader.repair(range.clone(), field, limit, packet, output, Summing::Anew));
        };
        let corrected = |packet: &[u8], output: &mut [u8]| {
            black_box(reader.repair(range.clone(), field, limit, packet, output, Summing::Corrected));
        };
        let times = race_repairs(rounds, &received, [&library, &anew, &corrected]);
        let rate = |time: Duration| packets as f64 / time.as_secs_f64();
        println!(
            "{len:5}  {limit}  {flips:7}  {:8.0}  {:15.1}%  {:8.0}  {:8.4}  {:22.0}  {:8.4}",
            rate(times[0]),
            share(verifying * packets as u32, times[0]),
            rate(times[1]),
            ratio(times[1], times[0]),
            rate(times[2]),
            ratio(times[2], times[0]),
        );
    }
}

/// Packets damaged in the same way and taken for ones without a checksum, so that candidates are only counted; beside that the
/// same packets with their checksum.
fn unchecked(random: &mut Random, tables: &Tables, reader: &Reader) {
    println!("The same without a checksum.");
    println!("bytes  N  flipped   library  with the checksum     ratio    method     ratio");
    for (len, limit, flips, packets, rounds) in REPAIRS {
        let received = damaged(random, packets, len, flips);
        for packet in &received {
            compare_repairs(tables, reader, NO_CHECKSUM, 0, limit, packet, Summing::Nothing);
        }
        let library = |packet: &[u8], output: &mut [u8]| {
            let _ = black_box(tables.repair(CRC, NO_CHECKSUM, 0, limit, packet, output).unwrap());
        };
        let weighing = |packet: &[u8], output: &mut [u8]| {
            let _ = black_box(tables.repair(CRC, 0..len - 2, len - 4, limit, packet, output).unwrap());
        };
        let method = |packet: &[u8], output: &mut [u8]| {
            black_box(reader.repair(NO_CHECKSUM, 0, limit, packet, output, Summing::Nothing));
        };
        let times = race_repairs(rounds, &received, [&library, &weighing, &method]);
        let rate = |time: Duration| packets as f64 / time.as_secs_f64();
        println!(
            "{len:5}  {limit}  {flips:7}  {:8.0}  {:17.0}  {:8.4}  {:8.0}  {:8.4}",
            rate(times[0]),
            rate(times[1]),
            ratio(times[1], times[0]),
            rate(times[2]),
            ratio(times[2], times[0]),
        );
    }
}

/// A simulation of packets of 64 bytes at N = 1, by a call of make and one of repair for each trial.
fn simulated_by_calls(tables: &Tables, seed: u32, trials: u64) -> Simulation {
    let mut simulation = Simulation { rows: [Counts::default(); MOST_FLIPS + 1], state: seed };
    let (mut made, mut output) = ([0; 64], [0; 64]);
    for (flips, row) in simulation.rows.iter_mut().enumerate() {
        for _ in 0..trials {
            let mut state = make(CRC, simulation.state, 0..62, 60, &mut made).unwrap();
            let mut received = made;
            let mut taken: Vec<usize> = Vec::new();
            for i in 0..flips {
                state = state.wrapping_mul(1664525).wrapping_add(1013904223);
                // the place among the positions not yet taken
                let mut position = state as usize % (512 - i);
                for &lower in &taken {
                    position += usize::from(lower <= position);
                }
                taken.push(position);
                taken.sort_unstable();
                received[63 - position / 8] ^= 1 << (position % 8);
            }
            simulation.state = state;
            match tables.repair(CRC, 0..62, 60, 1, &received, &mut output).unwrap() {
                Verdict::Intact => row.intact += 1,
                Verdict::Repaired(_) if output == made => row.repaired_to_made += 1,
                Verdict::Repaired(_) => row.repaired_otherwise += 1,
                Verdict::Several { .. } => row.several += 1,
                Verdict::None => row.none += 1,
            }
        }
    }
    simulation
}

/// A trial, which is a packet made, damaged and repaired, beside a call of repair alone.
fn simulations(random: &mut Random, tables: &Tables, verifying: Duration) {
    const TRIALS: u64 = 1000;
    println!("Simulation of 1,000 trials in each of its nine rows (CCITT, 64 bytes, N of 1). Microseconds.");
    println!("trial  verifying tables  repair call  trial to call  trial by make and repair     ratio");
    let received = damaged(random, 200, 64, 1);
    let seed = random.below(1 << 32) as u32;
    let (mut packet, mut output) = ([0; 64], [0; 64]);
    let tried = tables.simulate(CRC, seed, 0..62, 60, 1, TRIALS, &mut packet, &mut output).unwrap();
    assert_eq!(tried, simulated_by_calls(tables, seed, TRIALS));

    let times = race(
        5,
        &mut (),
        |_| (),
        &mut [
            &mut |_| {
                let _ = black_box(tables.simulate(CRC, seed, 0..62, 60, 1, TRIALS, &mut packet, &mut output).unwrap());
            },
            &mut |_| {
                for packet in &received {
                    let _ = black_box(tables.repair(CRC, 0..62, 60, 1, packet, &mut [0; 64]).unwrap());
                }
            },
            &mut |_| {
                let _ = black_box(simulated_by_calls(tables, seed, TRIALS));
            },
        ],
    );
    let trials = 9.0 * TRIALS as f64;
    let (trial, call) = (micros(times[0]) / trials, micros(times[1]) / received.len() as f64);
    println!(
        "{trial:5.2}  {:15.2}%  {call:11.2}  {:13.3}  {:24.2}  {:8.2}",
        share(verifying, times[0]),
        trial / call,
        micros(times[2]) / trials,
        ratio(times[2], times[0]),
    );
}

fn remainders(random: &mut Random, crc: &TableCrc) {
    println!("Remainder of a packet (CCITT), beside a table-driven CRC in the usual loop and in the shifting one. Nanoseconds.");
    println!("bytes   library     usual  ratio  shifting  ratio");
    for len in [16, 64, 512] {
        let packets = damaged(random, 1000, len, 1);
        for packet in &packets {
            assert_eq!(remainder(CRC, packet), Ok(crc.remainder(packet).into()));
            assert_eq!(crc.usual(packet), crc.remainder(packet));
        }
        let mut library = |_: &mut ()| {
            for packet in &packets {
                black_box(remainder(CRC, black_box(packet)).unwrap());
            }
        };
        let mut usual = |_: &mut ()| {
            for packet in &packets {
                black_box(crc.usual(black_box(packet)));
            }
        };
        let mut shifting = |_: &mut ()| {
            for packet in &packets {
                black_box(crc.remainder(black_box(packet)));
            }
        };
        // microseconds for a thousand packets are nanoseconds for one
        let times = race(30, &mut (), |_| (), &mut [&mut library, &mut usual, &mut shifting]);
        println!(
            "{len:5}  {:8.0}  {:8.0}  {:5.2}  {:8.0}  {:5.2}",
            micros(times[0]),
            micros(times[1]),
            ratio(times[1], times[0]),
            micros(times[2]),
            ratio(times[2], times[0]),
        );
    }
}

/// The second column of the paper's table 3.
const PRINTED_NEXT: [u16; 32] = [
    23, 13, 22, 12, 21, 15, 20, 14, 19, 9, 18, 8, 17, 11, 16, 10, 31, 5, 30, 4, 29, 7, 28, 6, 27, 1, 26, 0, 25, 3, 24,
    2,
];

fn main() {
    assert_eq!(Lookup::new(FIVE as u32).next_column(), PRINTED_NEXT, "the method's table is not the paper's");
    let random = &mut Random(0x1234_5678_9ABC_DEF1);
    let tables = Tables::new(CCITT).unwrap();
    let reader = Reader { lookup: Lookup::new(CCITT as u32), crc: TableCrc::new(CCITT as u32) };

    println!(
        "One thread; the shortest of several runs in turn. Outputs are cleared before each run, outside its time;"
    );
    println!(
        "packets and tables were read before. The library verifies its tables in each call, the method trusts them."
    );
    println!();
    let verifying = verifying(&tables);
    println!("Verifying the tables (CCITT), in each page and repair: {:.1} microseconds.", micros(verifying));
    println!();
    lists(random, &tables, &reader.lookup, verifying);
    println!();
    resumed(random, &tables, &reader.lookup, verifying);
    println!();
    repairs(random, &tables, &reader, verifying);
    println!();
    unchecked(random, &tables, &reader);
    println!();
    simulations(random, &tables, verifying);
    println!();
    remainders(random, &reader.crc);
}
