//! The comparison itself: with the stand-in it finds no difference and meets all
//! that it has to meet; with each fault it finds one.

use networks::run::Run;
use networks::sizes::{self, SMALL};
use networks::{invariant, stand_in};
use std::process::Command;

#[test]
fn without_a_fault_nothing_differs() {
    let mut run = Run::new(1);
    sizes::compare(&mut run, SMALL).unwrap();
    assert_eq!(sizes::not_met(&run.tallies), Vec::<String>::new());
}

#[test]
fn each_fault_is_found() {
    for name in stand_in::faults() {
        stand_in::set_fault(Some(name));
        let found = sizes::compare(&mut Run::new(1), SMALL).err();
        let found = found.unwrap_or_else(|| panic!("not found: {name}")).0;
        assert!(found.starts_with("difference at call "), "{found}");
        println!("{name}: {}", found.lines().next().unwrap_or(""));
    }
}

/// The same seed comes to the same difference.
#[test]
fn a_difference_is_met_again() {
    stand_in::set_fault(Some("circling is stranded"));
    let [first, again] = [7, 7].map(|seed| sizes::compare(&mut Run::new(seed), SMALL).err());
    let (first, again) = (first.unwrap().0, again.unwrap().0);
    assert_eq!(first, again);
    assert!(first.contains("of seed 7, "), "{first}");
}

#[test]
fn circles_are_found_by_walking() {
    let seen = invariant::check(1, 30, 200).unwrap();
    assert_eq!(seen.accepted + seen.refused, 6_000);
    assert!(seen.walked.longest > 3 && seen.walked.widest > 3);
    stand_in::set_fault(Some("feasible distance raised too soon"));
    let what = invariant::check(1, 30, 200).unwrap_err();
    assert!(what.contains("of seed 1, "), "{what}");
}

/// The binaries fail, and say where.
#[test]
fn binaries_exit_with_1() {
    let binaries = [
        (env!("CARGO_BIN_EXE_networks"), "costs exchanged"),
        (
            env!("CARGO_BIN_EXE_invariant"),
            "feasible distance raised too soon",
        ),
    ];
    for (binary, fault) in binaries {
        let mut command = Command::new(binary);
        let output = command.arg("9").env("PUNTCLOVER_FAULT", fault).output();
        let output = output.unwrap();
        assert_eq!(output.status.code(), Some(1), "{binary}");
        let text = String::from_utf8_lossy(&output.stdout).into_owned();
        assert!(text.contains("of seed 9, "), "{text}");
    }
}
