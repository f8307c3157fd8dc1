//! What was compared so far, and how a difference is told.

use crate::call::Call;
use crate::table;
use second::limits::FIRMWARE_ROOM;
use shared::rng::Rng;
use shared::tally::{Difference, Tallies};
use std::fmt::Write as _;

/// The bytes of the buffer of which the start is lent as `out`.
pub const BUFFER: usize = FIRMWARE_ROOM + 125;

/// What a call answered, and what all the lent bytes then held.
#[derive(Clone, PartialEq, Eq)]
pub struct Outcome {
    /// The answer.
    pub answer: u32,
    /// The table.
    pub table: Vec<u8>,
    /// The buffer, also the bytes that were not lent.
    pub out: Vec<u8>,
}

/// A run: the source of random numbers, what was seen so far, and some of the
/// tables that were reached.
pub struct Run {
    /// Random numbers, from the seed.
    pub rng: Rng,
    /// Tables that events have reached.
    pub reached: Vec<Vec<u8>>,
    /// What was seen so far.
    pub tallies: Tallies,
}

impl Run {
    /// A run that has seen nothing.
    pub fn new(seed: u64) -> Run {
        Run {
            rng: Rng::new(seed),
            reached: Vec::new(),
            tallies: Tallies::default(),
        }
    }

    /// Random bytes for the buffer.
    pub fn buffer(&mut self) -> Vec<u8> {
        let words = (0..BUFFER / 4 + 1).map(|_| self.rng.next_bits() as u32);
        let mut bytes: Vec<u8> = words.flat_map(u32::to_ne_bytes).collect();
        bytes.truncate(BUFFER);
        bytes
    }

    /// Counts a call, and compares its two outcomes.
    pub fn compare(
        &mut self,
        part: &'static str,
        call: &Call,
        before: &[u8],
        room: usize,
        [product, second]: [&Outcome; 2],
    ) -> Result<(), Difference> {
        self.tallies.count(part, call.name(), second.answer);
        if product == second {
            return Ok(());
        }
        let mut text = format!("difference in {part}: {call}, room {room}\n");
        let _ = writeln!(text, "before  {}", shown(before));
        for (side, it) in [("product", product), ("second ", second)] {
            let _ = writeln!(text, "{side} answers {}", it.answer);
        }
        tell(&mut text, "table", &product.table, &second.table, true);
        tell(&mut text, "out", &product.out, &second.out, false);
        Err(Difference(text))
    }

    /// The number of calls that were compared: events, and questions.
    pub fn totals(&self) -> (u64, u64) {
        let is_event = |kind: &str| {
            matches!(
                kind,
                "fresh" | "up" | "cost" | "down" | "message" | "deliver"
            )
        };
        let events = self.tallies.total(|_, kind| is_event(kind));
        let questions = self.tallies.total(|_, kind| !is_event(kind));
        (events, questions)
    }
}

/// The first few places where two sides differ.
fn tell(text: &mut String, what: &str, product: &[u8], second: &[u8], is_table: bool) {
    if product.len() != second.len() {
        let (ours, theirs) = (product.len(), second.len());
        let _ = writeln!(text, "{what}: {ours} bytes, second {theirs} bytes");
    }
    let step = if is_table { table::EACH } else { 1 };
    let chunks = product.chunks(step).zip(second.chunks(step));
    let differing = chunks
        .enumerate()
        .filter(|(_, (ours, theirs))| ours != theirs);
    for (place, (ours, theirs)) in differing.take(8) {
        let name = if is_table {
            table::place_name(step * place)
        } else {
            format!("byte {place}")
        };
        let _ = writeln!(
            text,
            "{what}, {name}: product {ours:02x?}, second {theirs:02x?}"
        );
    }
}

/// A table by its numbers other than 0, as index and hexadecimal number.
fn shown(table: &[u8]) -> String {
    let mut text = format!("table of {} bytes,", table.len());
    for (place, word) in table.chunks(table::EACH).enumerate() {
        if word.iter().any(|&byte| byte != 0) {
            let _ = write!(text, " {place}:");
            for byte in word {
                let _ = write!(text, "{byte:02x}");
            }
        }
    }
    text
}
