//! What the headers give to callers in C: numbers of the rules, the refusals
//! with their words, one version, one prefix for every name.

use second::limits::{
    ACCEPTED, ENTRIES, ENTRY_BYTES, FIRMWARE_ROOM, FRAMES, HIGHEST_COST, LARGEST_FRAME, LAST_HOP,
    MESSAGE_ROOM, MOST_ENTERED, REMOVED, UNITS,
};
use second::meter_table;
use second::network_tables::{QUEUES_BYTES, UNITS_BYTES, UNIT_BYTES};
use second::refusal;
use second::table_bytes::EACH;
use std::collections::BTreeMap;
use std::fs;
use std::path::Path;

const HEADERS: [&str; 7] = [
    "puntclover.h",
    "puntclover/answers.h",
    "puntclover/hub.h",
    "puntclover/message.h",
    "puntclover/meter.h",
    "puntclover/network.h",
    "puntclover/version.h",
];

fn text_of(header: &str) -> String {
    let folder = Path::new(env!("CARGO_MANIFEST_DIR")).join("../../include");
    fs::read_to_string(folder.join(header)).unwrap()
}

/// Each name that a line defines, with what follows it.
fn defined(text: &str) -> impl Iterator<Item = (&str, &str)> {
    let lines = text.lines().map(|line| line.strip_prefix("#define "));
    lines
        .flatten()
        .map(|it| it.split_once(' ').unwrap_or((it, "")))
}

/// Each `#define NAME NUMBERu` of a header.
fn numbers_of(header: &str) -> BTreeMap<String, usize> {
    let text = text_of(header);
    let number = |(name, value): (&str, &str)| {
        let value = value.strip_suffix('u')?.parse().ok()?;
        Some((name.to_string(), value))
    };
    defined(&text).filter_map(number).collect()
}

/// Each `NAME = NUMBER` of a header's enums, with the comment after it.
fn enumerators_of(header: &str) -> Vec<(String, u32, String)> {
    let text = text_of(header);
    let enumerator = |line: &str| {
        let (name, rest) = line.trim().split_once(" = ")?;
        let (value, comment) = rest.split_once("/*").unwrap_or((rest, ""));
        let value = value.trim().trim_end_matches(',').parse().ok()?;
        let comment = comment.trim_end_matches("*/").trim();
        Some((name.to_string(), value, comment.to_string()))
    };
    text.lines().filter_map(enumerator).collect()
}

fn check(header: &str, expected: &[(&str, usize)]) {
    let expected = expected.iter().map(|&(name, it)| (name.to_string(), it));
    assert_eq!(numbers_of(header), expected.collect(), "{header}");
}

#[test]
fn numbers_of_the_headers() {
    check(
        "puntclover/answers.h",
        &[
            ("PUNTCLOVER_UNITS", UNITS),
            ("PUNTCLOVER_HIGHEST_COST", HIGHEST_COST as usize),
            ("PUNTCLOVER_ANSWERED", ACCEPTED as usize),
        ],
    );
    check(
        "puntclover/hub.h",
        &[
            ("PUNTCLOVER_HUB_TABLE_BYTES", UNIT_BYTES),
            ("PUNTCLOVER_HUB_ROOM", FIRMWARE_ROOM),
        ],
    );
    check(
        "puntclover/message.h",
        &[
            ("PUNTCLOVER_MESSAGE_MOST", MESSAGE_ROOM),
            ("PUNTCLOVER_CHANGE_BYTES", ENTRY_BYTES),
            ("PUNTCLOVER_FIELDS_BYTES", EACH * (3 + ENTRIES)),
            ("PUNTCLOVER_REMOVED", REMOVED as usize),
        ],
    );
    check(
        "puntclover/meter.h",
        &[
            ("PUNTCLOVER_METER_BYTES", meter_table::BYTES),
            ("PUNTCLOVER_METER_FRAMES", FRAMES),
            ("PUNTCLOVER_METER_LARGEST", LARGEST_FRAME as usize),
            ("PUNTCLOVER_METER_MOST", MOST_ENTERED as usize),
            ("PUNTCLOVER_METER_LAST_HOP", LAST_HOP.into()),
        ],
    );
    check(
        "puntclover/network.h",
        &[
            ("PUNTCLOVER_NETWORK_UNITS_BYTES", UNITS_BYTES),
            ("PUNTCLOVER_NETWORK_QUEUES_BYTES", QUEUES_BYTES),
        ],
    );
}

/// Each refusal of the rules has a name, and the words that the header's
/// function gives for it are those of its comment.
#[test]
fn refusals_and_their_words() {
    let numbers = [
        ("COUNT", refusal::COUNT),
        ("TABLES", refusal::UNFIT),
        ("UNIT", refusal::UNIT),
        ("COST", refusal::COST),
        ("ALREADY_UP", refusal::ALREADY_UP),
        ("NOT_UP", refusal::NOT_UP),
        ("ROOM", refusal::TOO_SHORT),
        ("EMPTY_QUEUE", refusal::EMPTY_QUEUE),
        ("LAYOUT", refusal::LAYOUT),
        ("NOT_AWAITED", refusal::NOT_AWAITED),
        ("CHANGES_NOTHING", refusal::CHANGES_NOTHING),
        ("NOT_A_TREE", refusal::NOT_A_TREE),
        ("QUEUE_FULL", refusal::QUEUE_FULL),
        ("NO_PLACE", refusal::NO_PLACE),
        ("ENTERED", refusal::ENTERED),
        ("FRAME", refusal::FRAME),
    ];
    let text = text_of("puntclover/answers.h");
    let words = text.lines().filter_map(|line| {
        let words = line.trim().trim_end_matches(',').strip_prefix('"')?;
        words.strip_suffix('"')
    });
    // The first words are those for a number that is no refusal.
    let mut words = words.skip(1);
    let mut named = enumerators_of("puntclover/answers.h").into_iter();
    for (name, number) in numbers {
        let (full, value, comment) = named.next().unwrap();
        assert_eq!(full, format!("PUNTCLOVER_REFUSED_{name}"));
        assert_eq!(value, number, "{name}");
        assert_eq!(words.next(), Some(comment.as_str()), "{name}");
    }
    assert_eq!((named.next(), words.next()), (None, None));
}

#[test]
fn one_version() {
    let text = text_of("puntclover/version.h");
    let values: BTreeMap<&str, &str> = defined(&text).collect();
    let part = |name: &str| values[format!("PUNTCLOVER_VERSION_{name}").as_str()];
    let parts = ["MAJOR", "MINOR", "PATCH"].map(part);
    assert!(parts.iter().all(|it| it.parse::<u32>().is_ok()));
    let whole = format!("\"{}\"", parts.join("."));
    assert_eq!(values["PUNTCLOVER_VERSION"], whole);
}

/// Every macro and enumerator, function and type has the one prefix.
#[test]
fn one_prefix() {
    for header in HEADERS {
        let text = text_of(header);
        for (name, _) in defined(&text) {
            assert!(name.starts_with("PUNTCLOVER_"), "{header}: {name}");
        }
        for (name, ..) in enumerators_of(header) {
            assert!(name.starts_with("PUNTCLOVER_"), "{header}: {name}");
        }
        for line in text.lines().filter(|line| is_declaration(line)) {
            let (before, _) = line.split_once(['(', '{']).unwrap();
            let name = before.trim_end().rsplit([' ', '*']).next().unwrap();
            assert!(name.starts_with("puntclover_"), "{header}: {line}");
        }
    }
}

/// Whether a line begins a function, a struct or an enum.
fn is_declaration(line: &str) -> bool {
    let starts = [
        "uint32_t ",
        "uint64_t ",
        "static inline ",
        "struct ",
        "enum ",
    ];
    starts.iter().any(|start| line.starts_with(start))
}
