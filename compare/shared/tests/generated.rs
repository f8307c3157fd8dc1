//! What generated scripts hold: every kind of line and answer, every size.

use second::limits::LAST_HOP;
use second::script::{parse, Command, Runner};
use shared::draw::{FEWEST, MOST};
use shared::generator::{script, script_with_meter, Maker};
use std::collections::BTreeMap;
use std::ops::Range;

/// The lines of a script; a last line's end ends no further line.
fn lines(script: &[u8]) -> Vec<&[u8]> {
    let body = script.strip_suffix(b"\n").unwrap_or(script);
    body.split(|&byte| byte == b'\n').collect()
}

/// How often each answer comes in the scripts of some seeds; `show`'s tables
/// count as "table", pages as "page", and the places of held frames as one.
fn answers(seeds: Range<u64>, script: Maker, runner: fn() -> Runner) -> BTreeMap<String, usize> {
    let mut counts = BTreeMap::new();
    for seed in seeds {
        let script = script(seed, None);
        let mut runner = runner();
        for line in lines(&script) {
            let mut answer = Vec::new();
            runner.answer(line, &mut answer).unwrap();
            let answer = String::from_utf8(answer).unwrap();
            let kind = match answer.trim_end() {
                table if table.starts_with("unit ") => "table",
                page if page.starts_with("entered ") => "page",
                held if held.starts_with("held ") => "held",
                other => other,
            };
            *counts.entry(kind.to_string()).or_insert(0) += 1;
        }
    }
    counts
}

/// Every answer that a script can meet is met often, and no other. Refusal 13
/// is not among them: from a fresh network no queue passes 2 messages.
#[test]
fn every_answer_is_met() {
    let counts = answers(0..400, script, Runner::default);
    let expected = [
        "bad line",
        "ok",
        "refused 1",
        "refused 2",
        "refused 3",
        "refused 4",
        "refused 5",
        "refused 6",
        "refused 8",
        "table",
    ];
    assert!(counts.keys().eq(expected), "{counts:?}");
    assert!(counts.values().all(|&count| count > 100), "{counts:?}");
    let sum: usize = counts.values().sum();
    assert!(counts["ok"] * 10 > sum * 7, "mostly legal: {counts:?}");
}

/// With a meter likewise. Refusal 15 is not among them: it takes 10^15 bytes.
#[test]
fn every_answer_is_met_with_a_meter() {
    let counts = answers(0..400, script_with_meter, Runner::with_meter);
    let expected = [
        "bad line",
        "delivered",
        "dropped",
        "held",
        "ok",
        "page",
        "refused 1",
        "refused 14",
        "refused 16",
        "refused 2",
        "refused 3",
        "refused 4",
        "refused 5",
        "refused 6",
        "refused 8",
        "table",
    ];
    assert!(counts.keys().eq(expected), "{counts:?}");
    assert!(counts.values().all(|&count| count > 25), "{counts:?}");
}

/// In long scripts with a meter some frames make their last hop and are dropped
/// there, some are delivered there.
#[test]
fn some_frames_make_their_last_hop() {
    let mut ends = BTreeMap::new();
    for seed in 0..8 {
        let mut runner = Runner::with_meter();
        for line in lines(&script_with_meter(seed, Some(4_000))) {
            let is_last_hop = match parse(line) {
                Some(Command::Move(place, _)) => {
                    let held = runner.meter().held(place);
                    held.is_ok_and(|(_, frame)| frame.hops + 1 == LAST_HOP)
                }
                _ => false,
            };
            let mut answer = Vec::new();
            runner.answer(line, &mut answer).unwrap();
            if is_last_hop {
                let answer = String::from_utf8(answer).unwrap();
                *ends.entry(answer).or_insert(0) += 1;
            }
        }
    }
    assert!(ends.keys().eq(["delivered\n", "dropped\n"]), "{ends:?}");
}

#[test]
fn a_seed_determines_its_script() {
    for script in [script, script_with_meter] {
        for seed in 0..30 {
            assert_eq!(script(seed, None), script(seed, None));
            assert_ne!(script(seed, None), script(seed + 1, None));
        }
    }
}

#[test]
fn scripts_have_the_lines_asked_for() {
    for seed in 0..60 {
        let drawn = lines(&script(seed, None)).len();
        assert!((19..=600).contains(&drawn), "seed {seed}: {drawn}");
        for asked in [1, 2, 50, 1500] {
            for script in [script, script_with_meter] {
                let found = lines(&script(seed, Some(asked))).len();
                assert!(found == asked || found + 1 == asked, "{found} of {asked}");
            }
        }
    }
    assert_eq!(script(0, Some(0)), b"");
}

/// All legal counts occur, links as well, and some scripts end without a line's
/// end, some have several networks.
#[test]
fn sizes_and_endings_vary() {
    let mut sizes = BTreeMap::new();
    let (mut open_ends, mut restarts) = (0, 0);
    for seed in 0..300 {
        let script = script(seed, None);
        open_ends += usize::from(!script.ends_with(b"\n"));
        let commands = lines(&script).into_iter().filter_map(parse);
        let good = |command| match command {
            Command::Units(count @ FEWEST..=MOST) => Some(count),
            _ => None,
        };
        let counts: Vec<u32> = commands.filter_map(good).collect();
        restarts += usize::from(counts.len() > 1);
        for count in counts {
            *sizes.entry(count).or_insert(0) += 1;
        }
    }
    assert!(sizes.keys().copied().eq(FEWEST..=MOST), "{sizes:?}");
    assert!((30..=100).contains(&open_ends), "{open_ends} open ends");
    assert!(restarts > 100, "{restarts} scripts with several networks");
}
