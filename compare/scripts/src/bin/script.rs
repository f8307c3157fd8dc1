//! `script [--meter] SEED [LINES]`: prints the script that the seed determines, of
//! about so many lines; with a meter's commands, or without.

use shared::generator::{self, Maker};
use std::env;
use std::io::{self, Write};
use std::process::ExitCode;

/// The script asked for, if the arguments ask for one.
fn asked() -> Option<Vec<u8>> {
    let words: Vec<String> = env::args_os()
        .skip(1)
        .map(|word| word.into_string().ok())
        .collect::<Option<_>>()?;
    let (script, words): (Maker, _) = match words.split_first() {
        Some((word, others)) if word == "--meter" => (generator::script_with_meter, others),
        _ => (generator::script, words.as_slice()),
    };
    match words {
        [seed] => Some(script(seed.parse().ok()?, None)),
        [seed, lines] => Some(script(seed.parse().ok()?, Some(lines.parse().ok()?))),
        _ => None,
    }
}

fn main() -> ExitCode {
    let Some(script) = asked() else {
        let _ = writeln!(io::stderr(), "usage: script [--meter] SEED [LINES]");
        return ExitCode::from(2);
    };
    let mut output = io::stdout().lock();
    match output.write_all(&script).and_then(|()| output.flush()) {
        Ok(()) => ExitCode::SUCCESS,
        Err(error) => {
            let _ = writeln!(io::stderr(), "script: {error}");
            ExitCode::FAILURE
        }
    }
}
