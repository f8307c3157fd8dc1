//! Fit tables that no sequence of calls from a fresh network has reached: made
//! up altogether, or reached ones whose queues were filled. Only there are the
//! refusals 10 to 13 met, and circles by the tracer.

use crate::call::Call;
use crate::life;
use crate::run::Run;
use crate::view::View;
use second::limits::QUEUE_ROOM;
use second::message::Message;
use second::network::Network;
use second::network_tables::Tables;
use second::queues::Queues;
use second::recompute::Neighbour;
use second::tree::{Distance, UnitNumber};
use shared::draw::{self, MOST};
use shared::rng::Rng;
use shared::tally::Difference;
use std::collections::BTreeSet;

/// The parts of the comparison.
pub const PARTS: [&str; 2] = ["made up", "filled"];

/// So many networks of each part, and so many calls on each.
pub fn compare(run: &mut Run, networks: u32, calls: u32) -> Result<(), Difference> {
    for _ in 0..networks {
        let made_up = made_up(&mut run.rng);
        live(run, PARTS[0], made_up, calls)?;
        let Run { rng, reached, .. } = run;
        if let Some(reached) = rng.pick(reached) {
            let filled = filled(rng, reached);
            live(run, PARTS[1], filled, calls)?;
        }
    }
    Ok(())
}

/// Calls on a fit network.
fn live(
    run: &mut Run,
    part: &'static str,
    mut network: Network,
    calls: u32,
) -> Result<(), Difference> {
    if !network.is_fit() {
        return Err(run.difference(format!("{part}: the network is unfit, {network:?}")));
    }
    let mut tables = Tables::of(&network);
    for _ in 0..calls {
        let call = call(&mut run.rng, &tables);
        run.step(part, &call, &mut tables, &mut network)?;
    }
    Ok(())
}

/// A delivery most often, or any other call.
fn call(rng: &mut Rng, tables: &Tables) -> Call {
    let view = View::of(tables);
    let link = rng.pick(&view.links).map(|link| link.ends);
    match (rng.between(0, 19), link) {
        (0..=8, _) => match rng.pick(&view.busy()) {
            Some(&(a, b)) => Call::Deliver(a, b),
            None => life::odd_call(rng, &view),
        },
        (9..=10, Some((a, b))) => Call::Cost(a, b, draw::cost(rng)),
        (11, Some((a, b))) => Call::Down(a, b),
        (12..=15, _) => life::trace(rng, view.count),
        (16, _) => life::question(rng, view.count),
        _ => life::odd_call(rng, &view),
    }
}

/// A network with everything drawn but what ties units together: links are up
/// at both ends. Often it has the most units, whose longest messages fill their
/// places.
pub fn made_up(rng: &mut Rng) -> Network {
    let count = match rng.chance(20) {
        true => MOST,
        false => draw::count(rng),
    } as u8;
    let share = rng.between(10, 100);
    let waits = rng.between(0, 80);
    let pairs = (0..count).flat_map(|b| (0..b).map(move |a| (a, b)));
    let up: BTreeSet<_> = pairs.filter(|_| rng.chance(share)).collect();
    let unit = |rng: &mut Rng, number: UnitNumber| {
        let is_up = |_: &mut Rng, k: UnitNumber| up.contains(&(number.min(k), number.max(k)));
        draw::unit(rng, count, number, waits, is_up)
    };
    let mut network = Network {
        units: (0..count).map(|number| unit(rng, number)).collect(),
        queues: Queues::default(),
    };
    if rng.chance(40) {
        forget_distances(rng, &mut network);
    }
    fill(rng, &mut network);
    network
}

/// All feasible distances unreachable and copies with more entries, so that each
/// neighbour that knows a way is a successor and traces go on and on.
fn forget_distances(rng: &mut Rng, network: &mut Network) {
    for unit in &mut network.units {
        for (&j, distance) in &mut unit.feasible {
            if j != unit.number {
                *distance = Distance::Unreachable;
            }
        }
        let changes = 3 * u32::from(unit.count);
        for neighbour in unit.neighbours.values_mut() {
            neighbour.copy = draw::changed(rng, unit.count, &neighbour.copy, changes);
        }
        draw::set_successors(unit);
    }
}

/// A reached network with more messages in its queues.
fn filled(rng: &mut Rng, reached: &Network) -> Network {
    let mut network = reached.clone();
    fill(rng, &mut network);
    network
}

/// Messages more in some queues, some of which are full then.
fn fill(rng: &mut Rng, network: &mut Network) {
    let (some, full) = (rng.between(0, 100), rng.between(0, 60));
    for receiver in &network.units {
        let (count, to) = (receiver.count, receiver.number);
        for (&from, neighbour) in &receiver.neighbours {
            let held = network.queues.queue(from, to).len();
            let free = QUEUE_ROOM.saturating_sub(held) as u32;
            let more = match rng.chance(some) {
                false => 0,
                true if rng.chance(full) => free,
                true => rng.between(0, free),
            };
            for _ in 0..more {
                let message = queued(rng, count, from, neighbour);
                network.queues.push(from, to, message);
            }
        }
    }
}

/// A message that keeps the layout: one that the receiver accepts now, or with
/// an acknowledgment, an idle entry, any differences or the most that a message
/// holds instead.
fn queued(rng: &mut Rng, count: u8, from: UnitNumber, neighbour: &Neighbour) -> Message {
    let mut message = draw::expected(rng, count, from, neighbour);
    match rng.between(0, 11) {
        0..=1 => message.acknowledgment = true,
        2 => draw::add_idle(rng, count, from, neighbour, &mut message),
        3..=4 => message.update = Some(draw::any_differences(rng, count, from)),
        5..=6 => message.update = Some(draw::differences(rng, count, from, 100)),
        7 => {
            message.acknowledgment = true;
            message.update = None;
        }
        _ => {}
    }
    message
}
