//! The comparison itself: with the stand-in it finds no difference and meets all
//! that it has to meet; with each fault it finds one.

use meters::sizes::{self, SMALL};
use meters::stand_in;
use networks::run::Run;
use std::process::Command;

#[test]
fn without_a_fault_nothing_differs() {
    let mut run = Run::new(1);
    sizes::compare(&mut run, SMALL).unwrap();
    assert_eq!(sizes::not_met(&run.tallies), Vec::<String>::new());
}

#[test]
fn each_fault_is_found() {
    for name in stand_in::faults() {
        stand_in::set_fault(Some(name));
        let found = sizes::compare(&mut Run::new(1), SMALL).err();
        let found = found.unwrap_or_else(|| panic!("not found: {name}")).0;
        assert!(found.starts_with("difference at call "), "{found}");
        println!("{name}: {}", found.lines().next().unwrap_or(""));
    }
}

/// The same seed comes to the same difference.
#[test]
fn a_difference_is_met_again() {
    stand_in::set_fault(Some("the hops are looked at first"));
    let [first, again] = [7, 7].map(|seed| sizes::compare(&mut Run::new(seed), SMALL).err());
    let (first, again) = (first.unwrap().0, again.unwrap().0);
    assert_eq!(first, again);
    assert!(first.contains("of seed 7, "), "{first}");
}

/// The binary fails, and says where.
#[test]
fn the_binary_exits_with_1() {
    let mut command = Command::new(env!("CARGO_BIN_EXE_meters"));
    let command = command.arg("9").env("PUNTCLOVER_METER_FAULT", "a 65th hop");
    let output = command.output().unwrap();
    assert_eq!(output.status.code(), Some(1));
    let text = String::from_utf8_lossy(&output.stdout).into_owned();
    assert!(text.contains("of seed 9, "), "{text}");
}
