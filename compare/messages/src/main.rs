//! Compares the product's reader and writer of messages with the second ones.
//!
//! The product's functions are proved; what is not proved is that the proofs
//! speak of what the rules mean. So the same inputs go to the product and to
//! [`second`], which was written from the rules alone, and every answer and
//! every lent place is compared.
//!
//! `messages [SEED]` prints the seed and how many inputs of each kind were
//! compared, with their answers. At the first difference it prints it and fails.

#![warn(missing_docs)]

mod product;
mod run;
mod sides;

use run::{Run, TABLE};
use second::message;
use shared::draw::MOST;
use shared::rng::Rng;
use shared::sample;
use shared::tally::{grouped, Difference};
use std::env;
use std::process::ExitCode;

/// How many inputs of each random kind are compared.
const RANDOM: u32 = 250_000;

fn main() -> ExitCode {
    let argument = env::args().nth(1).unwrap_or_else(|| String::from("1"));
    let Ok(seed) = argument.parse() else {
        eprintln!("usage: messages [SEED], a decimal number");
        return ExitCode::from(2);
    };
    println!("seed {seed}");
    let mut run = Run::new(seed);
    let verdict = compare(&mut run);
    run.tallies.report();
    let differences = u8::from(verdict.is_err());
    if let Err(Difference(text)) = verdict {
        print!("{text}");
    }
    println!(
        "messages: {} byte strings read, {} writes compared, {} round trips, {differences} differences",
        grouped(run.tallies.total(|part, _| part == "read")),
        grouped(run.tallies.total(|part, _| part == "written")),
        grouped(run.round_trips),
    );
    ExitCode::from(differences)
}

/// All kinds of inputs, until one differs.
fn compare(run: &mut Run) -> Result<(), Difference> {
    read_short_strings(run)?;
    read_single_entries(run)?;
    read_changed_bytes(run)?;
    read_random(run)?;
    read_short_tables(run)?;
    write_random(run)
}

/// Every string of up to four bytes over a small alphabet.
fn read_short_strings(run: &mut Run) -> Result<(), Difference> {
    let most = MOST as u8;
    let alphabet = [0, 1, 2, 3, 4, 5, most - 1, most, most + 1, u8::MAX];
    let counts = [0, 1, 2, 3, 4, 5, MOST, MOST + 1, MOST + 2, u32::MAX];
    let mut strings: Vec<Vec<u8>> = vec![Vec::new()];
    for length in 0..=4 {
        for string in &strings {
            for count in counts {
                run.read("all short strings", count, string, TABLE)?;
            }
        }
        if length < 4 {
            let longer = |string: &Vec<u8>| alphabet.map(|byte| [string, &[byte][..]].concat());
            strings = strings.iter().flat_map(longer).collect();
        }
    }
    Ok(())
}

/// Every message of one entry with fields from a small alphabet.
fn read_single_entries(run: &mut Run) -> Result<(), Difference> {
    let alphabet = [0, 1, 2, 3, MOST as u8, u8::MAX];
    let size = alphabet.len();
    for number in 0..size.pow(6) {
        let mut bytes = [message::EDITION, 0, 0, 1, 0, 0, 0, 0];
        let mut rest = number;
        for place in [1, 2, 4, 5, 6, 7] {
            bytes[place] = alphabet[rest % size];
            rest /= size;
        }
        for count in [2, 3, MOST, MOST + 1] {
            run.read("all of one entry", count, &bytes, TABLE)?;
        }
    }
    Ok(())
}

/// Every change of one byte of some legal messages.
fn read_changed_bytes(run: &mut Run) -> Result<(), Difference> {
    for _ in 0..40 {
        let fields = sample::legal(&mut run.rng);
        let mut bytes = sample::laid_out(&fields);
        for place in 0..bytes.len() {
            let kept = bytes[place];
            for byte in 0..=u8::MAX {
                bytes[place] = byte;
                run.read("one byte changed", fields.count, &bytes, TABLE)?;
            }
            bytes[place] = kept;
        }
    }
    Ok(())
}

/// Random bytes, and legal messages as they are and broken.
fn read_random(run: &mut Run) -> Result<(), Difference> {
    read_many(run, "random bytes", |rng| (sample::noise(rng), None))?;
    read_many(run, "legal", legal_bytes)?;
    read_many(run, "truncated", |rng| broken(rng, sample::truncated))?;
    read_many(run, "extended", |rng| broken(rng, sample::extended))?;
    read_many(run, "bits flipped", |rng| broken(rng, sample::flipped))?;
    read_many(run, "spliced", |rng| {
        broken(rng, |rng, bytes| {
            let other = alike(rng, bytes.len());
            sample::spliced(rng, &bytes, &other)
        })
    })
}

/// Many strings of one kind, each for its own count or for any.
fn read_many(
    run: &mut Run,
    kind: &'static str,
    make: impl Fn(&mut Rng) -> (Vec<u8>, Option<u32>),
) -> Result<(), Difference> {
    for _ in 0..RANDOM {
        let (bytes, own) = make(&mut run.rng);
        let any = run.rng.between(0, MOST + 4);
        let count = own.filter(|_| run.rng.chance(70)).unwrap_or(any);
        run.read(kind, count, &bytes, TABLE)?;
    }
    Ok(())
}

/// Legal messages, and some broken ones, for tables of any length.
fn read_short_tables(run: &mut Run) -> Result<(), Difference> {
    for _ in 0..RANDOM {
        let fields = sample::disturbed(&mut run.rng);
        let bytes = sample::laid_out(&fields);
        let lent = run.rng.between(0, TABLE as u32) as usize;
        run.read("short tables", fields.count, &bytes, lent)?;
    }
    Ok(())
}

/// Fields, legal and not, into frames with and without room.
fn write_random(run: &mut Run) -> Result<(), Difference> {
    for _ in 0..RANDOM {
        let fields = sample::legal(&mut run.rng);
        run.write("legal fields", &fields)?;
    }
    for _ in 0..RANDOM {
        let fields = sample::disturbed(&mut run.rng);
        run.write("disturbed fields", &fields)?;
    }
    for _ in 0..RANDOM {
        let fields = sample::disturbed(&mut run.rng);
        run.write_cut("no whole entries", &fields)?;
    }
    Ok(())
}

/// A legal message's bytes, with the count that it is legal for.
fn legal_bytes(rng: &mut Rng) -> (Vec<u8>, Option<u32>) {
    let fields = sample::legal(rng);
    (sample::laid_out(&fields), Some(fields.count))
}

/// The same, broken.
fn broken(
    rng: &mut Rng,
    breaking: impl Fn(&mut Rng, Vec<u8>) -> Vec<u8>,
) -> (Vec<u8>, Option<u32>) {
    let (bytes, own) = legal_bytes(rng);
    (breaking(rng, bytes), own)
}

/// A legal message's bytes, if it can be of this length.
fn alike(rng: &mut Rng, length: usize) -> Vec<u8> {
    let mut bytes = legal_bytes(rng).0;
    for _ in 0..8 {
        if bytes.len() != length {
            bytes = legal_bytes(rng).0;
        }
    }
    bytes
}
