//! What was compared so far, and how a difference is told. What is accepted is
//! also sent round: bytes that were read are written again, fields that were
//! written are read back.

use crate::product::{self, FIELDS, LEADING};
use crate::sides::{
    lay_fields, product_reading, product_writing, second_reading, second_writing, Given, Outcome,
};
use second::limits::{message_length, ACCEPTED, MESSAGE_ROOM};
use second::table_bytes::{number_at, EACH};
use shared::rng::Rng;
use shared::sample::{self, Fields};
use shared::tally::{Difference, Tallies};
use std::fmt::Write as _;

/// The bytes of the table that a reader's fields are laid into, of which only
/// a part may be lent.
pub const TABLE: usize = FIELDS + 24;

/// The bytes of the frame, of which only a part may be lent.
const FRAME: usize = 128 + MESSAGE_ROOM;

/// A run: the source of random numbers, and what was seen so far.
pub struct Run {
    /// Random numbers, from the seed.
    pub rng: Rng,
    /// What was seen so far.
    pub tallies: Tallies,
    /// How often accepted bytes and fields were sent round.
    pub round_trips: u64,
}

impl Run {
    /// A run that has seen nothing.
    pub fn new(seed: u64) -> Run {
        Run {
            rng: Rng::new(seed),
            tallies: Tallies::default(),
            round_trips: 0,
        }
    }

    /// One string, read by both into a table of which so many bytes are lent.
    pub fn read(
        &mut self,
        kind: &'static str,
        count: u32,
        bytes: &[u8],
        lent: usize,
    ) -> Result<(), Difference> {
        let table = self.noise(TABLE);
        let product = product_reading(count, bytes, table.clone(), lent);
        let second = second_reading(count, bytes, table, lent);
        self.tallies.count("read", kind, second.answer);
        if product != second {
            let input = format!("count {count}, {lent} lent\nbytes   {}", hex(bytes));
            return Err(difference("a reading", &input, [product, second]));
        }
        if second.answer < ACCEPTED {
            return Ok(());
        }
        self.write_again(count, bytes, &product.held)
    }

    /// Accepted bytes, written again from the fields that the product read.
    fn write_again(&mut self, count: u32, bytes: &[u8], table: &[u8]) -> Result<(), Difference> {
        self.round_trips += 1;
        let offset = self.rng.between(0, 9) as usize;
        let mut held = vec![170; offset + bytes.len() + 3];
        let mut frame = held.clone();
        held[offset..offset + bytes.len()].copy_from_slice(bytes);
        let [kind, sender, number] = [0, 1, 2].map(|place| number_at(table, place));
        let changes = &table[EACH * LEADING..][..EACH * number as usize];
        let answer = product::write(count, kind, sender, changes, &mut frame, offset);
        let product = Outcome {
            answer,
            held: frame,
        };
        let wanted = Outcome {
            answer: ACCEPTED + bytes.len() as u32,
            held,
        };
        if product == wanted {
            return Ok(());
        }
        let input = format!("count {count}, offset {offset}\nbytes   {}", hex(bytes));
        Err(difference("bytes written again", &input, [product, wanted]))
    }

    /// One message, written by both into a frame of which a part is lent.
    pub fn write(&mut self, kind: &'static str, fields: &Fields) -> Result<(), Difference> {
        let given = Given::of(fields);
        let Some((offset, product)) = self.written(kind, &given)? else {
            return Ok(());
        };
        let bytes = (product.answer - ACCEPTED) as usize;
        self.read_back(fields, &product.held[offset..offset + bytes])
    }

    /// The same with changes that are some bytes too many or too few, so that
    /// they are no whole entries.
    pub fn write_cut(&mut self, kind: &'static str, fields: &Fields) -> Result<(), Difference> {
        let mut given = Given::of(fields);
        let more = self.rng.between(1, EACH as u32 - 1) as usize;
        if self.rng.chance(50) && !given.changes.is_empty() {
            given.changes.truncate(given.changes.len() - more);
        } else {
            given.changes.extend(self.noise(more));
        }
        self.written(kind, &given).map(|_| ())
    }

    /// What the product made of a writing on which both agree, with the offset;
    /// nothing if it is refused.
    fn written(
        &mut self,
        kind: &'static str,
        given: &Given,
    ) -> Result<Option<(usize, Outcome)>, Difference> {
        let bytes = message_length(given.changes.len() / EACH);
        let (length, offset) = sample::place(&mut self.rng, bytes);
        let frame = self.noise(FRAME);
        let product = product_writing(given, frame.clone(), length, offset);
        let second = second_writing(given, frame, length, offset);
        self.tallies.count("written", kind, second.answer);
        if product != second {
            let input = format!("frame of {length}, offset {offset}\n{given:02x?}");
            return Err(difference("a writing", &input, [product, second]));
        }
        Ok((second.answer >= ACCEPTED).then_some((offset, product)))
    }

    /// Random bytes, so that a byte that stays is known.
    fn noise(&mut self, length: usize) -> Vec<u8> {
        (0..length).map(|_| self.rng.next_bits() as u8).collect()
    }

    /// Accepted fields, read back by the product from the bytes that it wrote.
    fn read_back(&mut self, fields: &Fields, bytes: &[u8]) -> Result<(), Difference> {
        self.round_trips += 1;
        let product = product_reading(fields.count, bytes, vec![0; FIELDS], FIELDS);
        let mut held = vec![0; FIELDS];
        lay_fields(&mut held, fields.kind, fields.sender, &fields.changes);
        let wanted = Outcome {
            answer: ACCEPTED + fields.changes.len() as u32,
            held,
        };
        if product == wanted {
            return Ok(());
        }
        let input = format!("bytes   {}\n{fields:08x?}", hex(bytes));
        Err(difference("fields read back", &input, [product, wanted]))
    }
}

fn difference(what: &str, input: &str, sides: [Outcome; 2]) -> Difference {
    let [product, second] = sides.map(|it| format!("answers {}, {}", it.answer, hex(&it.held)));
    Difference(format!(
        "difference in {what}: {input}\nproduct {product}\nsecond  {second}\n"
    ))
}

fn hex(bytes: &[u8]) -> String {
    bytes.iter().fold(String::new(), |mut text, byte| {
        let _ = write!(text, "{byte:02x} ");
        text
    })
}
