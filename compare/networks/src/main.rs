//! Compares the proved network with the second implementation.
//!
//! `networks [SEED]` prints the seed and how many calls of each kind were
//! compared, with their answers. At the first difference it prints it and
//! fails; it also fails if something that it has to meet was not met.

use networks::damage;
use networks::run::Run;
use networks::sizes::{self, FULL};
use shared::tally::{grouped, Difference};
use std::env;
use std::process::ExitCode;

fn main() -> ExitCode {
    let argument = env::args().nth(1).unwrap_or_else(|| String::from("1"));
    let Ok(seed) = argument.parse() else {
        eprintln!("usage: networks [SEED], a decimal number");
        return ExitCode::from(2);
    };
    println!("seed {seed}");
    let mut run = Run::new(seed);
    let verdict = sizes::compare(&mut run, FULL);
    run.tallies.report();
    let differences = u8::from(verdict.is_err());
    let mut missing = Vec::new();
    match verdict {
        Err(Difference(text)) => print!("{text}"),
        Ok(()) => missing = sizes::not_met(&run.tallies),
    }
    for what in &missing {
        println!("not met: {what}");
    }
    let damaged = grouped(run.tallies.total(|part, _| part == damage::PART));
    let questions = grouped(run.tallies.total(sizes::is_question));
    let events = grouped(run.tallies.total(sizes::is_event));
    println!("networks: {damaged} calls on damaged tables compared");
    println!("networks: {questions} questions and traces compared");
    println!("networks: {events} events compared, {differences} differences");
    ExitCode::from(u8::from(differences > 0 || !missing.is_empty()))
}
