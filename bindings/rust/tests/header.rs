//! The header and the crate say the same: version, names and numbers.

use rangqoda::{catalogue, Crc, Refusal};
use std::collections::BTreeMap;

const HEADER: &str = include_str!("../../../include/rangqoda.h");

/// What the header defines, by name, without `RANGQODA_`, suffixes of numbers and comments.
fn defined() -> BTreeMap<&'static str, String> {
    let mut names = BTreeMap::new();
    for line in HEADER.lines() {
        let mut parts = line.splitn(3, ' ');
        if let (Some("#define"), Some(name), Some(rest)) = (parts.next(), parts.next(), parts.next()) {
            let value = rest.split("/*").next().unwrap().trim().replace("RANGQODA_", "");
            let name = name.strip_prefix("RANGQODA_").expect("a name of this library");
            assert_eq!(names.insert(name, value), None, "{name} is defined twice");
        }
    }
    names
}

fn number(text: &str) -> u64 {
    let digits = text.strip_suffix('u').unwrap_or(text);
    match digits.strip_prefix("0x") {
        Some(digits) => u64::from_str_radix(digits, 16).unwrap(),
        None => digits.parse().unwrap(),
    }
}

/// The name of a constant for a name of the catalogues.
fn constant(called: &str) -> String {
    called.replace(&['-', '/'][..], "_")
}

#[test]
fn the_version() {
    let defined = defined();
    let version = ["MAJOR", "MINOR", "PATCH"].map(|part| defined[format!("VERSION_{part}").as_str()].as_str());
    assert_eq!(version.join("."), rangqoda::VERSION);
    assert_eq!(rangqoda::VERSION, env!("CARGO_PKG_VERSION"));
    let changes = include_str!("../../../CHANGELOG.md");
    let newest = changes.lines().find_map(|line| line.strip_prefix("## ")).expect("an entry");
    assert_eq!(newest.split(' ').next(), Some(rangqoda::VERSION));
}

#[test]
fn the_crcs_and_their_other_names() {
    let defined = defined();
    let crc = |value: &str| {
        let numbers: Vec<u64> = value.split(", ").map(number).collect();
        Crc { generator: numbers[0], init: numbers[1], xorout: numbers[2] }
    };
    for (called, of) in catalogue::ALL {
        assert_eq!(crc(&defined[constant(called).as_str()]), *of, "{called}");
    }
    for (called, of) in catalogue::ALIASES {
        let other = &defined[constant(called).as_str()];
        assert_eq!(crc(&defined[other.as_str()]), *of, "{called}");
    }
    let crcs = defined.keys().filter(|name| name.starts_with("CRC_") || name.contains("_CRC_") || **name == "ZMODEM");
    assert_eq!(crcs.count(), catalogue::ALL.len() + catalogue::ALIASES.len());
    assert_eq!(number(&defined["FIVE"]), rangqoda::FIVE);
    assert_eq!(number(&defined["CCITT"]), rangqoda::CCITT);
}

#[test]
fn the_numbers() {
    let defined = defined();
    for refusal in Refusal::ALL {
        // `TableLength` is RANGQODA_REFUSED_TABLE_LENGTH
        let mut name = "REFUSED".to_string();
        for letter in format!("{refusal:?}").chars() {
            if letter.is_uppercase() {
                name.push('_');
            }
            name.push(letter.to_ascii_uppercase());
        }
        assert_eq!(number(&defined[name.as_str()]), u64::from(refusal.number()), "{name}");
    }
    assert_eq!(defined.keys().filter(|name| name.starts_with("REFUSED_")).count(), Refusal::ALL.len());
    assert_eq!(number(&defined["NO_POSITION"]), u64::from(rangqoda::NO_POSITION));
    assert_eq!(number(&defined["MOST_POSITIONS"]), rangqoda::MOST_POSITIONS as u64);
    assert_eq!(defined["RECORD_BYTES"], "(1 + 2 * MOST_POSITIONS)");
    assert_eq!(defined["MARK_BYTES"], "RECORD_BYTES");
    assert_eq!(defined["VERDICT_BYTES"], "(9 + RECORD_BYTES)");
    let first = |mark: rangqoda::Mark| u64::from(mark.to_bytes()[0]);
    assert_eq!(number(&defined["MARK_START"]), first(rangqoda::Mark::Start));
    assert_eq!(number(&defined["MARK_ENDED"]), first(rangqoda::Mark::Ended));
    let pattern = rangqoda::Pattern::EMPTY;
    for (name, verdict) in [
        ("INTACT", rangqoda::Verdict::Intact),
        ("REPAIRED", rangqoda::Verdict::Repaired(pattern)),
        ("SEVERAL", rangqoda::Verdict::Several { count: 2, pattern }),
        ("NONE", rangqoda::Verdict::None),
    ] {
        assert_eq!(number(&defined[name]), u64::from(verdict.to_bytes()[0]), "{name}");
    }
}

#[test]
fn the_numbers_of_a_simulation() {
    let defined = defined();
    assert_eq!(number(&defined["REFUSED_TRIALS"]), 14);
    assert_eq!(number(&defined["MOST_FLIPS"]), rangqoda::MOST_FLIPS as u64);
    assert_eq!(number(&defined["COLUMNS"]), 5);
    assert_eq!(defined["COUNTS"], "(COLUMNS * (MOST_FLIPS + 1))");
    let columns = ["INTACT", "REPAIRED_TO_MADE", "REPAIRED_OTHERWISE", "SEVERAL", "NONE"];
    for (column, name) in columns.iter().enumerate() {
        assert_eq!(number(&defined[format!("COUNT_{name}").as_str()]), column as u64, "{name}");
    }
    assert_eq!(defined.keys().filter(|name| name.starts_with("COUNT_")).count(), columns.len());
}
