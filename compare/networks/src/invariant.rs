//! Demand 3 by running: lives of the product's networks, and after each call a
//! walk of all successor graphs. The second program takes no part.

use crate::call::Call;
use crate::life::{self, Life};
use crate::product;
use crate::view::View;
use crate::walk::{self, Figures};
use second::limits::ACCEPTED;
use second::network_tables::Tables;
use second::refusal::UNFIT;
use shared::rng::Rng;

/// Calls with bad numbers, in so many of 100 cases.
const ODD: u32 = 2;

/// What was seen.
#[derive(Clone, Copy, Debug, Default)]
pub struct Seen {
    /// Accepted events.
    pub accepted: u64,
    /// Refused events.
    pub refused: u64,
    /// Accepted deliveries, of all accepted events.
    pub delivered: u64,
    /// Steps at which messages were under way.
    pub busy: u64,
    /// What was walked.
    pub walked: Figures,
}

/// So many lives of so many events each, or what is wrong.
pub fn check(seed: u64, lives: u32, events: u32) -> Result<Seen, String> {
    let mut rng = Rng::new(seed);
    let mut seen = Seen::default();
    for number in 0..lives {
        live(&mut rng, number, events, &mut seen).map_err(|what| {
            let events = seen.accepted + seen.refused;
            format!("event {events} of seed {seed}, {what}")
        })?;
    }
    Ok(seen)
}

fn live(rng: &mut Rng, number: u32, events: u32, seen: &mut Seen) -> Result<(), String> {
    let (count, shape) = life::count_and_shape(number);
    let mut life = Life::draw(rng, count, shape, ODD);
    let mut tables = Tables::zeros();
    if product::fresh(count, &mut tables.units, &mut tables.queues) != ACCEPTED {
        return Err(format!("a fresh network of {count} units is refused"));
    }
    walk::walk(&tables, &mut seen.walked)?;
    for _ in 0..events {
        let view = View::of(&tables);
        let call = life.next(rng, &view);
        let answer = call.of_product(&mut tables, &mut []);
        match (answer, &call) {
            (UNFIT, _) => return Err(format!("{count} units, {call}: its own tables are unfit")),
            (ACCEPTED, Call::Deliver(..)) => seen.delivered += 1,
            _ => {}
        }
        if answer == ACCEPTED {
            seen.accepted += 1;
        } else {
            seen.refused += 1;
        }
        seen.busy += u64::from(!view.busy().is_empty());
        let walked = walk::walk(&tables, &mut seen.walked);
        walked.map_err(|what| format!("{count} units, after {call}: {what}"))?;
    }
    Ok(())
}
