//! The tracer: follows successors from a start towards a destination.

use crate::network::Network;
use crate::refusal::{legal_unit, Refusal, TOO_SHORT};

/// How a trace ended, with the hops made.
#[derive(Clone, Copy, Debug, PartialEq, Eq)]
pub enum Ending {
    /// "It ends at the destination."
    Arrived {
        /// The hops made.
        hops: usize,
    },
    /// It ends "at a unit without successors".
    Stranded {
        /// The hops made.
        hops: usize,
    },
    /// "After the count less one hops, at a unit that is neither."
    Circling {
        /// The hops made, always the count less one.
        hops: usize,
    },
}

impl Network {
    /// "At each unit that isn't the destination it takes the successor, in
    /// rising order, whose place is the next choice byte modulo their number."
    /// "At each unit the destination is looked at first, then the successors,
    /// then the hops. Path bytes: the units met, start first; the rest of the
    /// buffer stays."
    ///
    /// Refused with 3 for start or destination, which may be equal; with 7 for
    /// a path of fewer places than units or choices fewer than units less one.
    pub fn trace(
        &self,
        start: u32,
        dest: u32,
        choices: &[u8],
        path: &mut [u8],
    ) -> Result<Ending, Refusal> {
        let count = self.count();
        let mut at = legal_unit(count, start)?;
        let dest = legal_unit(count, dest)?;
        let most_hops = usize::from(count) - 1;
        if path.len() <= most_hops || choices.len() < most_hops {
            return Err(TOO_SHORT);
        }
        let mut hops = 0;
        loop {
            path[hops] = at;
            let successors: Vec<_> = self.unit(at).successors[&dest].iter().collect();
            if at == dest {
                return Ok(Ending::Arrived { hops });
            }
            if successors.is_empty() {
                return Ok(Ending::Stranded { hops });
            }
            if hops == most_hops {
                return Ok(Ending::Circling { hops });
            }
            at = *successors[usize::from(choices[hops]) % successors.len()];
            hops += 1;
        }
    }
}
