//! Compares the C border of one hub with the second implementation.
//!
//! `hubs [SEED]` prints the seed and how many calls of each kind were compared,
//! with their answers. At the first difference it prints it and fails.

use hubs::run::Run;
use hubs::{damage, lives, networks};
use shared::tally::{grouped, Difference};
use std::env;
use std::process::ExitCode;

fn main() -> ExitCode {
    let argument = env::args().nth(1).unwrap_or_else(|| String::from("1"));
    let Ok(seed) = argument.parse() else {
        eprintln!("usage: hubs [SEED], a decimal number");
        return ExitCode::from(2);
    };
    println!("seed {seed}");
    let mut run = Run::new(seed);
    let verdict = compare(&mut run);
    run.tallies.report();
    let differences = u8::from(verdict.is_err());
    if let Err(Difference(text)) = verdict {
        print!("{text}");
    }
    let (events, questions) = run.totals();
    println!("hubs: {} questions compared", grouped(questions));
    println!(
        "hubs: {} events compared, {differences} differences",
        grouped(events)
    );
    ExitCode::from(differences)
}

/// All parts, until one differs.
fn compare(run: &mut Run) -> Result<(), Difference> {
    lives::compare_fresh(run)?;
    lives::compare(run, 60, 2_000)?;
    networks::compare(run, 150, 400)?;
    damage::compare_fit(run, 30_000)?;
    damage::compare_damaged(run, 100_000)
}
