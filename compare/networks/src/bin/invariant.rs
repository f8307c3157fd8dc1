//! Checks demand 3 on the proved network by running it.
//!
//! `invariant [SEED]` lets networks live and walks the successor graphs of all
//! destinations after each event. It prints figures; at the first circle, path
//! that is too long, or feasible distance that doesn't fall, it prints it and
//! fails.

use networks::invariant;
use networks::life::ROUND;
use shared::tally::grouped;
use std::env;
use std::process::ExitCode;

/// Lives of networks, each count in each shape four times.
const LIVES: u32 = 4 * ROUND;
/// The events of each life.
const EVENTS: u32 = 500;

fn main() -> ExitCode {
    let argument = env::args().nth(1).unwrap_or_else(|| String::from("3"));
    let Ok(seed) = argument.parse() else {
        eprintln!("usage: invariant [SEED], a decimal number");
        return ExitCode::from(2);
    };
    println!("seed {seed}");
    match invariant::check(seed, LIVES, EVENTS) {
        Err(what) => {
            println!("invariant: broken at {what}");
            ExitCode::FAILURE
        }
        Ok(seen) => {
            let walked = seen.walked;
            for (figure, what) in [
                (seen.accepted, "events accepted"),
                (seen.delivered, "of these deliveries"),
                (seen.refused, "events refused"),
                (seen.busy, "events while messages were under way"),
                (walked.graphs, "successor graphs walked"),
                (walked.edges, "successors looked at"),
                (walked.widest.into(), "successors of a unit at most"),
                (walked.longest.into(), "hops at most"),
                (
                    walked.full_length,
                    "graphs with a path of the count less one hops",
                ),
            ] {
                println!("{:>13} {what}", grouped(figure));
            }
            let events = grouped(seen.accepted + seen.refused);
            println!("invariant: {events} events, 0 circles");
            ExitCode::SUCCESS
        }
    }
}
