//! What the second implementation answers to the product's calls: the refusals
//! that the product's tables add to [`second::network`], and results as the
//! product's numbers.

use crate::product::{ARRIVED, CIRCLING, STRANDED};
use second::limits::ACCEPTED;
use second::network::Network;
use second::network_tables::{Tables, QUEUES_BYTES, UNITS_BYTES};
use second::refusal::{legal_count, legal_unit, Refusal, UNFIT};
use second::tracer::Ending;
use second::tree::Distance;
use second::unit_table::{set_number, UNREACHABLE};

/// A fresh network in lent slices. Refused with 1, then with 2 for their
/// lengths, "all that is tested for the fresh network".
pub fn fresh(count: u32, units: &mut [u8], queues: &mut [u8]) -> u32 {
    let fresh = || {
        legal_count(count)?;
        if units.len() != UNITS_BYTES || queues.len() != QUEUES_BYTES {
            return Err(UNFIT);
        }
        Network::fresh(count)
    };
    match fresh() {
        Err(refusal) => refusal,
        Ok(network) => {
            let tables = Tables::of(&network);
            units.copy_from_slice(&tables.units);
            queues.copy_from_slice(&tables.queues);
            ACCEPTED
        }
    }
}

/// An accepted call, or the refusal.
pub fn done(result: Result<(), Refusal>) -> u32 {
    result.map_or_else(|refusal| refusal, |()| ACCEPTED)
}

/// Whether a unit is ACTIVE. Refused with 3.
pub fn state(network: &Network, i: u32) -> u32 {
    let unit = legal_unit(network.count(), i);
    unit.map_or_else(
        |refusal| refusal,
        |i| ACCEPTED + u32::from(network.unit(i).is_active()),
    )
}

/// The distance of a destination. Refused with 3.
pub fn distance(network: &Network, i: u32, j: u32) -> u32 {
    distance_answer(network.distance(i, j))
}

/// The feasible distance of a destination. Refused with 3.
pub fn feasible(network: &Network, i: u32, j: u32) -> u32 {
    distance_answer(network.feasible(i, j))
}

fn distance_answer(distance: Result<Distance, Refusal>) -> u32 {
    match distance {
        Err(refusal) => refusal,
        Ok(Distance::Finite(sum)) => ACCEPTED + sum,
        Ok(Distance::Unreachable) => UNREACHABLE,
    }
}

/// The successors for a destination. Refused with 3.
pub fn successors(network: &Network, i: u32, j: u32) -> u32 {
    let set = network.successors(i, j);
    set.map_or_else(|refusal| refusal, |set| ACCEPTED + set_number(set))
}

/// The cost of the link from a unit to another, 0 where it is down. Refused
/// with 3.
pub fn link(network: &Network, i: u32, j: u32) -> u32 {
    let cost = network.link(i, j);
    cost.map_or_else(
        |refusal| refusal,
        |cost| ACCEPTED + cost.map_or(0, u32::from),
    )
}

/// Whether a unit awaits an acknowledgment of another. Refused with 3.
pub fn awaits(network: &Network, i: u32, j: u32) -> u32 {
    let awaits = network.awaits(i, j);
    awaits.map_or_else(|refusal| refusal, |awaits| ACCEPTED + u32::from(awaits))
}

/// A trace. Refused with 3, 7.
pub fn trace(
    network: &Network,
    start: u32,
    destination: u32,
    choices: &[u8],
    path: &mut [u8],
) -> u32 {
    match network.trace(start, destination, choices, path) {
        Err(refusal) => refusal,
        Ok(Ending::Arrived { hops }) => ARRIVED + hops as u32,
        Ok(Ending::Stranded { hops }) => STRANDED + hops as u32,
        Ok(Ending::Circling { hops }) => CIRCLING + hops as u32,
    }
}
