//! Compares the proved meter with the second implementation.
//!
//! `meters [SEED]` prints the seed and how many calls of each kind were compared,
//! with their answers. At the first difference it prints it and fails; it also
//! fails if something that it has to meet was not met.

use meters::sizes::{self, FULL, REFUSALS};
use networks::run::Run;
use shared::tally::{grouped, Difference};
use std::env;
use std::process::ExitCode;

fn main() -> ExitCode {
    let argument = env::args().nth(1).unwrap_or_else(|| String::from("1"));
    let Ok(seed) = argument.parse() else {
        eprintln!("usage: meters [SEED], a decimal number");
        return ExitCode::from(2);
    };
    println!("seed {seed}");
    let mut run = Run::new(seed);
    let verdict = sizes::compare(&mut run, FULL);
    run.tallies.report();
    let differences = u8::from(verdict.is_err());
    let mut missing = Vec::new();
    match verdict {
        Err(Difference(text)) => print!("{text}"),
        Ok(()) => missing = sizes::not_met(&run.tallies),
    }
    for what in &missing {
        println!("not met: {what}");
    }
    for number in REFUSALS {
        let refused = run
            .tallies
            .refused(number, |part, kind| !sizes::is_event(part, kind));
        println!("meters: {} calls refused with {number}", grouped(refused));
    }
    let damaged = grouped(run.tallies.total(|part, _| sizes::is_damaged(part)));
    let questions = grouped(run.tallies.total(sizes::is_question));
    let events = grouped(run.tallies.total(sizes::is_event));
    let changes = grouped(run.tallies.total(sizes::is_change));
    println!("meters: {damaged} calls on damaged tables compared");
    println!("meters: {questions} questions compared");
    println!("meters: {events} events of networks compared");
    println!("meters: {changes} calls on meters compared, {differences} differences");
    ExitCode::from(u8::from(differences > 0 || !missing.is_empty()))
}
