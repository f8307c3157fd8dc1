//! Compares what the script programs print with what the second program does.
//!
//! `scripts PROGRAM METER_PROGRAM [SEED]` runs scripts of a fixed seed, then of
//! the given one, or of a fresh one that it prints so that a failure can be
//! repeated. Each script is run whole through the program, so a network, a meter,
//! a line or a buffer that is carried over wrongly from one line to the next
//! shows. On any difference it says which seed, script and byte, and fails; it
//! also fails if something that it has to meet was not met.

mod counts;

use std::env;
use std::io::{self, Write};
use std::process::{Child, Command, ExitCode, Stdio};
use std::thread;
use std::time::{SystemTime, UNIX_EPOCH};

use counts::{Counts, Wanted, FATES, UNKNOWN};
use second::script::Runner;
use shared::generator::{self, Maker};
use shared::rng::Rng;

/// The seed that every run begins with.
const FIXED: u64 = 1;

/// Lines of a long script.
const LONG_LINES: usize = 4_000;

/// A program, the scripts for it and how the second program answers them.
struct Part<'a> {
    name: &'static str,
    program: &'a str,
    script: Maker,
    runner: fn() -> Runner,
    /// Scripts of each seed: most of them short, for many beginnings, and some
    /// long, for networks that have lived.
    short: u32,
    long: u32,
    /// What has to be met.
    wanted: Wanted,
}

/// The script program; the one with a meter; and scripts for the latter through
/// the former, to which a meter's commands are lines like any other.
fn parts<'a>(program: &'a str, meter_program: &'a str) -> [Part<'a>; 3] {
    let plain = Part {
        name: "without a meter",
        program,
        script: generator::script,
        runner: Runner::default,
        short: 1_500,
        long: 12,
        wanted: Wanted::default(),
    };
    let metered = Part {
        name: "with a meter",
        program: meter_program,
        script: generator::script_with_meter,
        runner: Runner::with_meter,
        short: 350,
        long: 8,
        wanted: FATES,
    };
    let unknown = Part {
        name: "a meter's commands without one",
        script: generator::script_with_meter,
        short: 40,
        long: 0,
        wanted: UNKNOWN,
        ..plain
    };
    [plain, metered, unknown]
}

fn main() -> ExitCode {
    let arguments: Vec<String> = env::args().skip(1).collect();
    let (program, meter_program, seed) = match arguments.as_slice() {
        [program, meter_program] => (program, meter_program, Some(fresh_seed())),
        [program, meter_program, seed] => (program, meter_program, seed.parse().ok()),
        _ => return usage(),
    };
    let Some(seed) = seed else {
        return usage();
    };
    println!("seeds {FIXED} and {seed}");
    let mut missing = Vec::new();
    for part in parts(program, meter_program) {
        let name = part.name;
        let mut counts = Counts::default();
        for seed in [FIXED, seed] {
            if let Err(what) = compare_all(&part, seed, &mut counts) {
                eprintln!("{name}, seed {seed}: {what}");
                return ExitCode::FAILURE;
            }
        }
        println!("{name}: {}, 0 differences", counts.sizes());
        print!("{}", counts.answers(&part.wanted));
        missing.extend(counts.not_met(&part.wanted));
    }
    for what in &missing {
        eprintln!("not met: {what}");
    }
    ExitCode::from(u8::from(!missing.is_empty()))
}

fn usage() -> ExitCode {
    eprintln!("usage: scripts PROGRAM METER_PROGRAM [SEED], SEED a decimal number");
    ExitCode::from(2)
}

/// A seed that differs from run to run.
fn fresh_seed() -> u64 {
    let since = SystemTime::now().duration_since(UNIX_EPOCH);
    since.map_or(2, |time| u64::from(time.subsec_nanos()))
}

/// All scripts of a seed. Each has a seed of its own, from which the binary
/// `script` prints it again.
fn compare_all(part: &Part, seed: u64, counts: &mut Counts) -> Result<(), String> {
    let mut rng = Rng::new(seed);
    for number in 0..part.short + part.long {
        let own = rng.next_bits();
        let lines = (number >= part.short).then_some(LONG_LINES);
        let mut input = (part.script)(own, lines);
        if rng.chance(10) {
            // A last line without its newline.
            input.pop();
        }
        compare(part, &input, counts)
            .map_err(|what| format!("script {number}, of seed {own}: {what}"))?;
    }
    Ok(())
}

/// One script through both.
fn compare(part: &Part, input: &[u8], counts: &mut Counts) -> Result<(), String> {
    let program = part.program;
    let printed = run(program, input).map_err(|error| format!("{program}: {error}"))?;
    let expected = answers((part.runner)(), input, counts).map_err(|error| error.to_string())?;
    match difference(&printed, &expected) {
        None => Ok(()),
        Some(place) => Err(format!(
            "byte {place} of the output differs, in its line {}",
            1 + expected
                .iter()
                .take(place)
                .filter(|&&byte| byte == b'\n')
                .count()
        )),
    }
}

/// What the second program prints, counted.
fn answers(mut runner: Runner, input: &[u8], counts: &mut Counts) -> io::Result<Vec<u8>> {
    counts.count_script(input);
    let mut output = Vec::new();
    for line in input.split_inclusive(|&byte| byte == b'\n') {
        let line = line.strip_suffix(b"\n").unwrap_or(line);
        let start = output.len();
        runner.answer(line, &mut output)?;
        counts.count_line(line, &output[start..]);
    }
    Ok(output)
}

/// Where two outputs begin to differ.
fn difference(a: &[u8], b: &[u8]) -> Option<usize> {
    let common = a.iter().zip(b).take_while(|(x, y)| x == y).count();
    (common < a.len().max(b.len())).then_some(common)
}

/// What the program prints. The script is written from a thread of its own:
/// both pipes may fill.
fn run(program: &str, input: &[u8]) -> io::Result<Vec<u8>> {
    let mut child: Child = Command::new(program)
        .stdin(Stdio::piped())
        .stdout(Stdio::piped())
        .spawn()?;
    let mut stdin = child.stdin.take().ok_or(io::ErrorKind::BrokenPipe)?;
    thread::scope(|scope| {
        let writer = scope.spawn(move || stdin.write_all(input));
        let output = child.wait_with_output()?;
        match writer.join() {
            Ok(written) => written?,
            Err(_) => return Err(io::ErrorKind::Other.into()),
        }
        if output.status.success() {
            Ok(output.stdout)
        } else {
            Err(io::Error::other(output.status.to_string()))
        }
    })
}

#[cfg(test)]
mod tests {
    use super::*;

    #[test]
    fn the_first_difference_is_found() {
        assert_eq!(difference(b"ok\n", b"ok\n"), None);
        assert_eq!(difference(b"ok\n", b"on\n"), Some(1));
        assert_eq!(difference(b"ok\n", b"ok\nok\n"), Some(3));
        assert_eq!(difference(b"", b"ok\n"), Some(0));
    }
}
