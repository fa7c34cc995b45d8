//! What a limit buys, as a table: `cargo run --release --example simulate -- CRC-16/IBM-3740 64 0..62 60 2 10000 1`.
//!
//! Packets are made from a seed, 0 to 8 bits of each are flipped, and the verdicts of the repairs are counted. Below the table stands
//! a footnote from which anyone can make it again.
//!
//! The trials are run in calls with fewer, each of which goes on from the state that the one before ended at. So there can be more of
//! them than one call takes, and a terminal shows how many are done. The calls are divided the same way with and without a terminal,
//! and so the table is the same.

use rangqoda::{catalogue, Counts, Crc, Refusal, Tables, MOST_FLIPS};
use std::io::{self, Write};
use std::ops::Range;
use std::process::exit;

const USAGE: &str = "\
usage: simulate CRC BYTES RANGE FIELD N TRIALS SEED
   or: simulate names
   or: simulate --help

  CRC     the CRC's name; `simulate names` prints the names
  BYTES   the length of a packet
  RANGE   the bytes that the checksum is over, as 0..62 for bytes 0 to 61
  FIELD   the first of the checksum's two bytes
  N       the limit: how many flipped bits a repair may explain, 1 to 4
  TRIALS  how many packets are tried with each number of flipped bits, from 1 on
  SEED    any number below 2^32

Numbers are decimal, or hexadecimal behind 0x. An example:

  cargo run --release --example simulate -- CRC-16/IBM-3740 64 0..62 60 2 10000 1";

/// What is tried.
#[derive(Clone, Debug, PartialEq, Eq)]
struct Settings {
    name: String,
    crc: Crc,
    bytes: usize,
    range: Range<usize>,
    field: usize,
    limit: usize,
    trials: u64,
    seed: u32,
}

/// A number, decimal or hexadecimal, of at most `most`; or what is wrong with it.
fn number(name: &str, text: &str, most: u64) -> Result<u64, String> {
    let (digits, base) = match text.strip_prefix("0x") {
        Some(digits) => (digits, 16),
        None => (text, 10),
    };
    if digits.is_empty() || !digits.chars().all(|digit| digit.is_digit(base)) {
        return Err(format!("{name} is {text:?}, which is no number"));
    }
    match u64::from_str_radix(digits, base) {
        Ok(number) if number <= most => Ok(number),
        _ if most == u64::MAX => Err(format!("{name} is {text}, which is too great")),
        _ => Err(format!("{name} is {text}, which is too great: the greatest is {most}")),
    }
}

/// A place or a length in a packet.
fn size(name: &str, text: &str) -> Result<usize, String> {
    number(name, text, usize::MAX as u64).map(|size| size as usize)
}

/// A range as `0..62`; or what is wrong with it.
fn range(name: &str, text: &str) -> Result<Range<usize>, String> {
    let read = |start, end| Some(size(name, start).ok()?..size(name, end).ok()?);
    text.split_once("..")
        .and_then(|(start, end)| read(start, end))
        .ok_or(format!("{name} is {text:?}, which is no range: bytes 0 to 61 are 0..62"))
}

/// The settings that the seven arguments name; or what is wrong with them.
fn settings(arguments: &[String; 7]) -> Result<Settings, String> {
    let [name, bytes, of, field, limit, trials, seed] = arguments;
    let crc = catalogue::by_name(name).ok_or(format!(
        "no CRC is called {name:?} here. `simulate names` prints the names. None is reflected, and none wider than 16 bits"
    ))?;
    Ok(Settings {
        name: name.to_uppercase(),
        crc,
        bytes: size("BYTES", bytes)?,
        range: range("RANGE", of)?,
        field: size("FIELD", field)?,
        limit: size("N", limit)?,
        trials: number("TRIALS", trials, u64::MAX)?,
        seed: number("SEED", seed, u32::MAX.into())? as u32,
    })
}

/// Why the settings were refused, and which argument to look at.
fn refused(refusal: Refusal, of: &Settings) -> String {
    let Settings { name, bytes, range, field, limit, trials, .. } = of;
    let about = match refusal {
        Refusal::Length => format!("BYTES is {bytes}; a packet has room for its CRC and more, and at most 512 bytes"),
        Refusal::Limit => format!("N is {limit}"),
        Refusal::Range => format!("RANGE is {range:?}, BYTES is {bytes}"),
        Refusal::Field if range.is_empty() => {
            format!("RANGE is {range:?} and has no bytes: every packet that is tried carries a checksum")
        }
        Refusal::Field => format!("FIELD is {field}, RANGE is {range:?}"),
        Refusal::Trials => format!("TRIALS is {trials}; more than 65535 are divided into several calls"),
        _ => format!("CRC is {name}"),
    };
    format!("{refusal} ({about})")
}

/// The most trials of a call. One with a greater limit or longer packets takes longer, and a call shows nothing before it ends.
fn most_in_a_call(limit: usize, bytes: usize) -> u64 {
    match limit {
        4 if bytes > 128 => 1,
        4 => 10,
        3 if bytes > 128 => 10,
        3 => 100,
        _ => 1000,
    }
}

/// How many trials each call has. Where none are asked for there is a call too, to say what it says of that.
fn calls(trials: u64, most: u64) -> impl Iterator<Item = u64> {
    let rest = trials % most;
    let whole = (0..trials / most).map(move |_| most);
    whole.chain(if rest > 0 || trials == 0 { Some(rest) } else { None })
}

/// The trials in words.
fn trials_in_words(trials: u64) -> String {
    let trial = if trials == 1 { "trial" } else { "trials" };
    format!("{trials} {trial}")
}

/// The calls in words.
fn calls_in_words(trials: u64, most: u64) -> String {
    let some = |calls: u64, trials: u64| {
        let call = if calls == 1 { "call" } else { "calls" };
        format!("{calls} {call} of {}", trials_in_words(trials))
    };
    match (trials / most, trials % most) {
        (0, rest) => some(1, rest),
        (whole, 0) => some(whole, most),
        (whole, rest) => format!("{} and {}", some(whole, most), some(1, rest)),
    }
}

/// Counts of all calls together.
type Row = [u64; 5];

fn add(row: &mut Row, counts: &Counts) {
    let Counts { intact, repaired_to_made, repaired_otherwise, several, none } = *counts;
    for (sum, count) in row.iter_mut().zip([intact, repaired_to_made, repaired_otherwise, several, none]) {
        *sum += u64::from(count);
    }
}

/// All rows, and the state at the end. `progress` is told how many trials are done.
fn simulate(of: &Settings, mut progress: impl FnMut(u64)) -> Result<([Row; MOST_FLIPS + 1], u32), Refusal> {
    let tables = Tables::new(of.crc.generator)?;
    // longer packets are refused as one of 513 bytes is
    let len = of.bytes.min(513);
    let (mut packet, mut output) = (vec![0; len], vec![0; len]);
    let (mut rows, mut state, mut done) = ([[0; 5]; MOST_FLIPS + 1], of.seed, 0);
    for trials in calls(of.trials, most_in_a_call(of.limit, of.bytes)) {
        let tried =
            tables.simulate(of.crc, state, of.range.clone(), of.field, of.limit, trials, &mut packet, &mut output)?;
        for (row, counts) in rows.iter_mut().zip(&tried.rows) {
            add(row, counts);
        }
        state = tried.state;
        done += trials;
        progress(done);
    }
    Ok((rows, state))
}

/// A part in per cent, to two places. A few trials of very many are not told as none, and nearly all of them not as all.
fn per_cent(part: u64, whole: u64) -> String {
    let (part, whole) = (u128::from(part), u128::from(whole));
    match (10_000 * part + whole / 2) / whole {
        0 if part > 0 => "<0.01%".to_string(),
        10_000 if part < whole => ">99.99%".to_string(),
        hundredths => format!("{}.{:02}%", hundredths / 100, hundredths % 100),
    }
}

/// The table: a row for each number of flips, with each outcome's count and its part of the trials.
fn table(rows: &[Row], trials: u64) -> String {
    // the widest are a count of all trials, and a head
    let (count, part) = (trials.to_string().len().max(6), ">99.99%".len());
    let width = count + 1 + part;
    let heads =
        [["", "intact"], ["repaired to", "packet made"], ["repaired", "otherwise"], ["", "several"], ["", "none"]];
    let mut text = String::new();
    for (line, first) in ["", "flips"].iter().enumerate() {
        let mut head = format!("{first:>5}");
        for of in heads {
            head += &format!("  {:>width$}", of[line]);
        }
        text += head.trim_end();
        text += "\n";
    }
    for (flips, row) in rows.iter().enumerate() {
        text += &format!("{flips:>5}");
        for &of in row {
            text += &format!("  {of:>count$} {:>part$}", per_cent(of, trials));
        }
        text += "\n";
    }
    text
}

/// What the table is of, so that anyone can make it again.
fn footnote(of: &Settings, state: u32) -> String {
    let Settings { name, crc, bytes, range, field, limit, trials, seed } = of;
    let Crc { generator, init, xorout } = crc;
    let (last, calls) = (range.end.saturating_sub(1), calls_in_words(*trials, most_in_a_call(*limit, *bytes)));
    format!(
        "\
{name}: generator {generator:#X}, initial value {init:#X}, final value {xorout:#X}.
Packets of {bytes} bytes, range {range:?} (checksum over bytes {} to {last}), field at byte {field}, limit N = {limit}.
{} with each number of flips, from seed {seed}, in {calls};
each call runs that many trials for every number of flips,
and begins at the state at which the one before it ended.
State at the end: {state:#010X}. Rangqoda {}, simulate {name} {bytes} {range:?} {field} {limit} {trials} {seed}.
",
        range.start,
        trials_in_words(*trials),
        rangqoda::VERSION,
    )
}

/// Every name, with its CRC.
fn names() -> String {
    let mut text = String::new();
    for (name, crc) in catalogue::ALL.iter().chain(catalogue::ALIASES) {
        let Crc { generator, init, xorout } = crc;
        text += &format!("{name:<20} generator {generator:#X}, initial value {init:#X}, final value {xorout:#X}\n");
    }
    text
}

/// Whether someone looks at the messages. (`std::io::IsTerminal` is of Rust 1.70.)
fn at_a_terminal() -> bool {
    extern "C" {
        fn isatty(descriptor: i32) -> i32;
    }
    // SAFETY: it takes any number, and reads no memory of this program.
    unsafe { isatty(2) == 1 }
}

/// What went wrong, and the status to end with.
struct Failure(i32, String);

const REFUSED: i32 = 1;
const MISUSED: i32 = 2;

/// What is to be printed.
fn run(arguments: &[String]) -> Result<String, Failure> {
    if let [only] = arguments {
        match only.as_str() {
            "names" => return Ok(names()),
            "-h" | "--help" => return Ok(format!("{USAGE}\n")),
            _ => (),
        }
    }
    let arguments = <&[String; 7]>::try_from(arguments)
        .map_err(|_| Failure(MISUSED, format!("7 arguments are needed, and {} came\n\n{USAGE}", arguments.len())))?;
    let of = settings(arguments).map_err(|wrong| Failure(MISUSED, wrong))?;
    let shown = at_a_terminal();
    let simulated = simulate(&of, |done| {
        if shown {
            eprint!("\r{done} of {} with each number of flips", trials_in_words(of.trials));
        }
    });
    if shown {
        eprint!("\r\x1B[K");
    }
    let (rows, state) = simulated.map_err(|refusal| Failure(REFUSED, refused(refusal, &of)))?;
    Ok(format!("{}\n{}", table(&rows, of.trials), footnote(&of, state)))
}

fn main() {
    let arguments: Vec<String> = std::env::args_os().skip(1).map(|text| text.to_string_lossy().into_owned()).collect();
    match run(&arguments) {
        Ok(text) => {
            if let Err(wrong) = io::stdout().write_all(text.as_bytes()) {
                eprintln!("simulate: the table could not be written: {wrong}");
                exit(REFUSED);
            }
        }
        Err(Failure(status, wrong)) => {
            eprintln!("simulate: {wrong}");
            exit(status);
        }
    }
}

#[cfg(test)]
mod tests {
    use super::*;

    fn arguments(text: &str) -> [String; 7] {
        let words: Vec<String> = text.split(' ').map(str::to_string).collect();
        words.try_into().expect("seven words")
    }

    fn small() -> Settings {
        settings(&arguments("crc-8 9 0..8 6 2 2500 0x7")).unwrap()
    }

    #[test]
    fn numbers() {
        for (text, expected) in [("0", 0), ("62", 62), ("007", 7), ("0x3e", 62), ("0x3E", 62), ("255", 255)] {
            assert_eq!(number("FIELD", text, 255), Ok(expected));
        }
        for text in
            ["", "ten", "-1", "+1", "0x", "0x+1", "1e3", "1.0", " 1", "1 ", "10,000", "3Eh", "99999999999999999999x"]
        {
            let wrong = number("FIELD", text, 255).unwrap_err();
            assert_eq!(wrong, format!("FIELD is {text:?}, which is no number"));
        }
        for text in ["256", "0x100", "0256", "18446744073709551616", "0x10000000000000000"] {
            let wrong = number("FIELD", text, 255).unwrap_err();
            assert_eq!(wrong, format!("FIELD is {text}, which is too great: the greatest is 255"));
        }
        assert_eq!(number("SEED", "4294967295", u32::MAX.into()), Ok(4294967295));
        assert!(number("SEED", "4294967296", u32::MAX.into()).is_err());
        assert_eq!(number("TRIALS", "18446744073709551615", u64::MAX), Ok(u64::MAX));
        let wrong = number("TRIALS", "18446744073709551616", u64::MAX).unwrap_err();
        assert_eq!(wrong, "TRIALS is 18446744073709551616, which is too great");
    }

    #[test]
    fn ranges() {
        assert_eq!(range("RANGE", "0..62"), Ok(0..62));
        assert_eq!(range("RANGE", "0x2..0x10"), Ok(2..16));
        // the library judges these
        assert_eq!(range("RANGE", "5..5"), Ok(5..5));
        assert_eq!(range("RANGE", "6..5"), Ok(Range { start: 6, end: 5 }));
        for text in ["", "62", "..", "0..", "..62", "0..=61", "0...62", "0-62", "0..62..64", "a..b", "-1..5"] {
            let wrong = range("RANGE", text).unwrap_err();
            assert_eq!(wrong, format!("RANGE is {text:?}, which is no range: bytes 0 to 61 are 0..62"));
        }
    }

    #[test]
    fn arguments_in_their_order() {
        let expected = Settings {
            name: "CRC-16/CCITT-FALSE".to_string(),
            crc: catalogue::CRC_16_IBM_3740,
            bytes: 64,
            range: 1..62,
            field: 59,
            limit: 2,
            trials: 10000,
            seed: 7,
        };
        assert_eq!(settings(&arguments("crc-16/Ccitt-False 64 1..62 59 2 10000 7")), Ok(expected));
        for (text, wrong) in [
            ("CRC-32 64 0..62 60 2 10000 7", "no CRC is called \"CRC-32\""),
            ("CRC-8 b 0..62 60 2 10000 7", "BYTES is \"b\""),
            ("CRC-8 64 0-62 60 2 10000 7", "RANGE is \"0-62\""),
            ("CRC-8 64 0..62 f 2 10000 7", "FIELD is \"f\""),
            ("CRC-8 64 0..62 60 n 10000 7", "N is \"n\""),
            ("CRC-8 64 0..62 60 2 t 7", "TRIALS is \"t\""),
            ("CRC-8 64 0..62 60 2 10000 s", "SEED is \"s\""),
        ] {
            let found = settings(&arguments(text)).unwrap_err();
            assert!(found.starts_with(wrong), "{found}");
        }
    }

    #[test]
    fn calls_have_all_trials_and_none_too_many() {
        for most in [1, 10, 1000] {
            for trials in [1, 9, 10, 11, 999, 1000, 1001, 2500, 70_000] {
                let all: Vec<u64> = calls(trials, most).collect();
                assert_eq!(all.iter().sum::<u64>(), trials);
                assert!(all.iter().all(|&some| (1..=most).contains(&some)));
                assert_eq!(all.len() as u64, (trials + most - 1) / most);
            }
        }
        assert_eq!(calls(0, 1000).collect::<Vec<_>>(), [0]);
        assert_eq!(calls(2500, 1000).collect::<Vec<_>>(), [1000, 1000, 500]);
        for (trials, words) in [
            (1, "1 call of 1 trial"),
            (999, "1 call of 999 trials"),
            (1000, "1 call of 1000 trials"),
            (1001, "1 call of 1000 trials and 1 call of 1 trial"),
            (2500, "2 calls of 1000 trials and 1 call of 500 trials"),
            (70_000, "70 calls of 1000 trials"),
        ] {
            assert_eq!(calls_in_words(trials, 1000), words);
        }
    }

    #[test]
    fn long_calls_have_fewer_trials() {
        for (limit, bytes, most) in [
            (1, 512, 1000),
            (2, 512, 1000),
            (3, 128, 100),
            (3, 129, 10),
            (4, 128, 10),
            (4, 129, 1),
            (4, 512, 1),
            (5, 64, 1000),
        ] {
            assert_eq!(most_in_a_call(limit, bytes), most, "{limit} {bytes}");
        }
        // the footnote tells the calls that are run
        let of = settings(&arguments("CRC-16/IBM-3740 129 0..127 0 3 21 1")).unwrap();
        let mut told = Vec::new();
        let (_, state) = simulate(&of, |done| told.push(done)).unwrap();
        assert_eq!(told, [10, 20, 21]);
        let text = footnote(&of, state);
        assert!(text.contains(", in 2 calls of 10 trials and 1 call of 1 trial;\n"), "{text}");
    }

    #[test]
    fn parts_in_per_cent() {
        for (part, whole, expected) in [
            (0, 1, "0.00%"),
            (1, 1, "100.00%"),
            (1, 3, "33.33%"),
            (2, 3, "66.67%"),
            (29, 10_000, "0.29%"),
            (1, 10_000, "0.01%"),
            (1, 20_000, "0.01%"),
            (1, 20_001, "<0.01%"),
            (19_998, 20_000, "99.99%"),
            (99_999, 100_000, ">99.99%"),
            (u64::MAX, u64::MAX, "100.00%"),
            (u64::MAX - 1, u64::MAX, ">99.99%"),
        ] {
            assert_eq!(per_cent(part, whole), expected, "{part} of {whole}");
        }
    }

    #[test]
    fn the_text_of_a_table() {
        let rows = [[30_000, 0, 0, 0, 0], [0, 29_999, 0, 1, 0], [0, 12_345, 67, 8, 17_580]];
        let expected = "
                          repaired to        repaired
flips          intact     packet made       otherwise         several            none
    0   30000 100.00%       0   0.00%       0   0.00%       0   0.00%       0   0.00%
    1       0   0.00%   29999 >99.99%       0   0.00%       1  <0.01%       0   0.00%
    2       0   0.00%   12345  41.15%      67   0.22%       8   0.03%   17580  58.60%
";
        assert_eq!(format!("\n{}", table(&rows, 30_000)), expected);
        // a count of many digits moves the columns apart
        let wide = table(&[[0, 12_345_678_901, 0, 0, 0]], 12_345_678_901);
        let lengths: Vec<usize> = wide.lines().skip(1).map(str::len).collect();
        assert_eq!(lengths, [5 + 5 * (2 + 11 + 1 + 7); 2], "{wide}");
    }

    #[test]
    fn the_footnote_has_all_that_the_table_is_made_from() {
        let text = footnote(&small(), 0xABCDEF);
        let expected = "\
CRC-8: generator 0x107, initial value 0x0, final value 0x0.
Packets of 9 bytes, range 0..8 (checksum over bytes 0 to 7), field at byte 6, limit N = 2.
2500 trials with each number of flips, from seed 7, in 2 calls of 1000 trials and 1 call of 500 trials;
each call runs that many trials for every number of flips,
and begins at the state at which the one before it ended.
";
        assert!(text.starts_with(expected), "{text}");
        let version = rangqoda::VERSION;
        assert!(text.ends_with(&format!(
            "State at the end: 0x00ABCDEF. Rangqoda {version}, simulate CRC-8 9 0..8 6 2 2500 7.\n"
        )));
        let one = footnote(&Settings { trials: 1, ..small() }, 0);
        assert!(one.contains("\n1 trial with each number of flips, from seed 7, in 1 call of 1 trial;\n"), "{one}");
    }

    /// The rows are the sums of the calls', with the state passed on; and the arguments of the footnote make them again.
    #[test]
    fn rows_of_all_calls() {
        let of = small();
        let mut told = Vec::new();
        let (rows, state) = simulate(&of, |done| told.push(done)).unwrap();
        assert_eq!(told, [1000, 2000, 2500]);
        let tables = Tables::new(of.crc.generator).unwrap();
        let (mut packet, mut output) = ([0; 9], [0; 9]);
        let (mut expected, mut last) = ([[0; 5]; 9], of.seed);
        for trials in [1000, 1000, 500] {
            let tried = tables.simulate(of.crc, last, 0..8, 6, 2, trials, &mut packet, &mut output).unwrap();
            last = tried.state;
            for (row, counts) in expected.iter_mut().zip(tried.rows) {
                row[0] += u64::from(counts.intact);
                row[1] += u64::from(counts.repaired_to_made);
                row[2] += u64::from(counts.repaired_otherwise);
                row[3] += u64::from(counts.several);
                row[4] += u64::from(counts.none);
            }
        }
        assert_eq!((rows, state), (expected, last));
        assert!(rows.iter().all(|row| row.iter().sum::<u64>() == 2500));
        assert_eq!(settings(&arguments("CRC-8 9 0..8 6 2 2500 7")), Ok(of));

        let more = Settings { trials: 65_537, ..small() };
        let (rows, _) = simulate(&more, |_| ()).unwrap();
        assert!(rows.iter().all(|row| row.iter().sum::<u64>() == 65_537));
    }

    #[test]
    fn refusals_name_an_argument() {
        for (text, about) in [
            ("CRC-8 0 0..8 6 2 1 1", "refused 2: the length is not above the degree, or above 4096 bits (BYTES is 0;"),
            ("CRC-8 18446744073709551615 0..8 6 2 1 1", "(BYTES is 18446744073709551615;"),
            ("CRC-8 9 0..8 6 5 1 1", "refused 3: the error limit is outside 1 to 4 (N is 5)"),
            ("CRC-8 9 0..9 6 2 1 1", "(RANGE is 0..9, BYTES is 9)"),
            ("CRC-8 9 3..2 6 2 1 1", "(RANGE is 3..2, BYTES is 9)"),
            ("CRC-8 9 0..8 5 2 1 1", "(FIELD is 5, RANGE is 0..8)"),
            ("CRC-8 9 0..0 0 2 1 1", "(RANGE is 0..0 and has no bytes: every packet that is tried carries a checksum)"),
            ("CRC-8 9 0..8 6 2 0 1", "refused 14: the number of trials is outside 1 to 65535 (TRIALS is 0;"),
        ] {
            let of = settings(&arguments(text)).unwrap();
            let found = refused(simulate(&of, |_| ()).unwrap_err(), &of);
            assert!(found.contains(about), "{found}");
        }
    }

    #[test]
    fn help_is_the_usage() {
        for asked in ["-h", "--help"] {
            assert_eq!(run(&[asked.to_string()]).ok(), Some(format!("{USAGE}\n")));
        }
        assert!(USAGE.starts_with("usage: simulate CRC BYTES"));
        for arguments in [&[][..], &["help"], &["--help", "-h"]] {
            let arguments: Vec<String> = arguments.iter().map(|text| text.to_string()).collect();
            let Failure(status, wrong) = run(&arguments).unwrap_err();
            let first = format!("7 arguments are needed, and {} came", arguments.len());
            assert_eq!((status, wrong), (MISUSED, format!("{first}\n\n{USAGE}")));
        }
    }

    #[test]
    fn every_name_is_printed() {
        let names = names();
        assert_eq!(names.lines().count(), catalogue::ALL.len() + catalogue::ALIASES.len());
        for line in names.lines() {
            assert!(catalogue::by_name(line.split(' ').next().unwrap()).is_some(), "{line}");
        }
    }
}
