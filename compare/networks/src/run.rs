//! What was compared so far, and how a difference is told.

use crate::call::{Call, PATH};
use second::network::Network;
use second::network_tables::{self, Tables, UNIT_BYTES};
use second::table_bytes::{numbers, EACH};
use shared::rng::Rng;
use shared::tally::{Difference, Tallies};
use std::fmt::{Display, LowerHex, Write as _};

/// A run: the source of random numbers, what was seen so far, and some of the
/// networks that were reached.
pub struct Run {
    /// Random numbers, from the seed.
    pub rng: Rng,
    /// The calls compared so far, by kind and answer.
    pub tallies: Tallies,
    /// Networks that events have reached.
    pub reached: Vec<Network>,
    seed: u64,
    number: u64,
}

/// What a call answered, and what all lent places then held.
#[derive(PartialEq, Eq)]
struct Outcome<'a> {
    answer: u32,
    tables: &'a Tables,
    path: [u8; PATH],
}

impl Run {
    /// A run that has seen nothing.
    pub fn new(seed: u64) -> Run {
        Run {
            rng: Rng::new(seed),
            tallies: Tallies::default(),
            reached: Vec::new(),
            seed,
            number: 0,
        }
    }

    /// Counts a call of a part of the comparison.
    pub fn count(&mut self, part: &'static str, kind: &'static str, answer: u32) {
        self.tallies.count(part, kind, answer);
        self.number += 1;
    }

    /// A difference at the last call, which is met again by the seed and the
    /// call's number.
    pub fn difference(&self, text: impl Display) -> Difference {
        let (number, seed) = (self.number, self.seed);
        Difference(format!(
            "difference at call {number} of seed {seed}, {text}\n"
        ))
    }

    /// A call on the product's tables and on the second program's network,
    /// which lays out its own.
    pub fn step(
        &mut self,
        part: &'static str,
        call: &Call,
        tables: &mut Tables,
        network: &mut Network,
    ) -> Result<(), Difference> {
        let before = tables.clone();
        let path = self.path();
        let (mut of_product, mut of_second) = (path, path);
        let answer = call.of_product(tables, &mut of_product);
        let wanted = call.of_second(network, &mut of_second);
        let laid_out = Tables::of(network);
        let product = Outcome {
            answer,
            tables,
            path: of_product,
        };
        let second = Outcome {
            answer: wanted,
            tables: &laid_out,
            path: of_second,
        };
        self.compare((part, call.kind(wanted)), call, &before, &product, &second)
    }

    /// A call on tables that may be unfit, which both sides judge.
    pub fn judge(
        &mut self,
        name: (&'static str, &'static str),
        call: &Call,
        before: &Tables,
    ) -> Result<(), Difference> {
        let path = self.path();
        let (mut ours, mut theirs) = (before.clone(), before.clone());
        let (mut of_product, mut of_second) = (path, path);
        let answer = call.of_product(&mut ours, &mut of_product);
        let wanted = call.of_second_on_tables(&mut theirs, &mut of_second);
        let product = Outcome {
            answer,
            tables: &ours,
            path: of_product,
        };
        let second = Outcome {
            answer: wanted,
            tables: &theirs,
            path: of_second,
        };
        self.compare(name, call, before, &product, &second)
    }

    /// Random bytes for a path, so that a byte that stays is known.
    fn path(&mut self) -> [u8; PATH] {
        [(); PATH].map(|()| self.rng.next_bits() as u8)
    }

    /// Counts a call, and compares its two outcomes.
    fn compare(
        &mut self,
        (part, kind): (&'static str, &'static str),
        call: &Call,
        before: &Tables,
        product: &Outcome,
        second: &Outcome,
    ) -> Result<(), Difference> {
        self.count(part, kind, second.answer);
        if product == second {
            return Ok(());
        }
        let mut text = format!("{part}, {kind}: {call}\n");
        let (ours, theirs) = (product.answer, second.answer);
        let _ = writeln!(text, "product answers {ours}, second {theirs}");
        let (ours, theirs) = (product.tables, second.tables);
        let unit_name = |byte| network_tables::word_name(byte / EACH);
        let queue_name = network_tables::byte_name;
        tell(&mut text, unit_name, &ours.units, &theirs.units);
        tell(&mut text, queue_name, &ours.queues, &theirs.queues);
        let path_name = |byte| format!("path, byte {byte}");
        tell(&mut text, path_name, &product.path, &second.path);
        show(&mut text, before);
        Err(self.difference(text.trim_end()))
    }
}

/// The first few places where two sides differ.
pub fn tell(text: &mut String, name: impl Fn(usize) -> String, product: &[u8], second: &[u8]) {
    if product.len() != second.len() {
        let (ours, theirs) = (product.len(), second.len());
        let _ = writeln!(text, "{ours} bytes, second {theirs} bytes");
    }
    let both = product.iter().zip(second).enumerate();
    let differing = both.filter(|(_, (ours, theirs))| ours != theirs);
    for (place, (ours, theirs)) in differing.take(8) {
        let name = name(place);
        let _ = writeln!(text, "{name}: product {ours:x}, second {theirs:x}");
    }
}

/// Tables by their numbers and bytes other than 0, in hexadecimal: of each unit
/// the index in its own table, of the queues the index among all.
pub fn show(text: &mut String, tables: &Tables) {
    let (units, queues) = (tables.units.len(), tables.queues.len());
    let _ = writeln!(text, "before, {units} bytes and {queues} bytes:");
    for (unit, table) in tables.units.chunks(UNIT_BYTES).enumerate() {
        show_places(text, &format!("unit {unit}"), &numbers(table));
    }
    show_places(text, "queues", &tables.queues);
}

/// The numbers or bytes of one table other than 0, each after its index.
pub fn show_places<T: LowerHex + Default + PartialEq>(text: &mut String, name: &str, places: &[T]) {
    let mut line = String::new();
    for (place, it) in places.iter().enumerate() {
        if *it != T::default() {
            let _ = write!(line, " {place}:{it:x}");
        }
    }
    if !line.is_empty() {
        let _ = writeln!(text, "{name}{line}");
    }
}
