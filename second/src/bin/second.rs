//! `second [--meter]`: reads a script on standard input and writes the answers to
//! standard output; with a meter, or without.

use second::script::Runner;
use std::env;
use std::io::{self, BufReader, BufWriter, Write};
use std::process::ExitCode;

fn main() -> ExitCode {
    let words: Vec<_> = env::args_os().skip(1).collect();
    let runner = match words.as_slice() {
        [] => Runner::default(),
        [word] if word == "--meter" => Runner::with_meter(),
        _ => {
            let _ = writeln!(io::stderr(), "usage: second [--meter]");
            return ExitCode::from(2);
        }
    };
    let mut input = BufReader::new(io::stdin().lock());
    let mut output = BufWriter::new(io::stdout().lock());
    match runner.run(&mut input, &mut output) {
        Ok(()) => ExitCode::SUCCESS,
        Err(error) => {
            // Nothing is left to be done if standard error is closed as well.
            let _ = writeln!(io::stderr(), "second: {error}");
            ExitCode::FAILURE
        }
    }
}
