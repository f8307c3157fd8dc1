//! Tables that no event left behind: those of reached networks with something
//! changed, or in slices of another length. Whether they are fit the second
//! program says; if not, both sides have to refuse with 2 and change nothing,
//! and else to do the same.

mod numbers;
mod queues;

use crate::call::Call;
use crate::life;
use crate::run::Run;
use crate::view::View;
use second::network::Network;
use second::network_tables::Tables;
use second::tree::UnitNumber;
use shared::draw;
use shared::rng::Rng;
use shared::tally::Difference;

/// The part of the comparison.
pub const PART: &str = "damaged";

/// What may be done to a network's tables; none where it can't be, because the
/// network has no link, no message or no place above the count.
type Damage = fn(&mut Rng, &Network) -> Option<Tables>;

/// All kinds of damage. Those on networks rather than on tables give successors
/// by F again, so that no rule but the one named is broken.
pub const DAMAGES: [(&str, Damage); 26] = [
    ("nothing", |_, network| Some(Tables::of(network))),
    ("bits of numbers", numbers::bits_of_numbers),
    ("byte of numbers", numbers::byte_of_numbers),
    ("a number", numbers::number),
    ("numbers exchanged", numbers::numbers_exchanged),
    ("count", numbers::count),
    ("own number", numbers::own_number),
    ("units exchanged", numbers::units_exchanged),
    ("cost", numbers::cost),
    ("wait", numbers::wait),
    ("own tree", numbers::own_tree),
    ("copy", numbers::copy),
    ("feasible", numbers::feasible),
    ("successors", numbers::successors),
    ("above the count", numbers::above_the_count),
    ("one end up", numbers::one_end_up),
    ("one end down", queues::one_end_down),
    ("link down, queued", queues::link_down_with_queue),
    ("message bytes", queues::message_bytes),
    ("message sender", queues::message_sender),
    ("after a message", queues::after_a_message),
    ("free place", queues::free_place),
    ("message, no link", queues::message_without_link),
    ("byte of queues", queues::byte_of_queues),
    ("units' length", queues::units_length),
    ("lengths", queues::lengths),
];

/// Calls on damaged tables, so many of each kind.
pub fn compare(run: &mut Run, of_each: u32) -> Result<(), Difference> {
    for _ in 0..of_each {
        for (name, damage) in DAMAGES {
            if let Some((call, tables)) = drawn(run, damage) {
                run.judge((PART, name), &call, &tables)?;
            }
        }
    }
    Ok(())
}

/// Damaged tables and a call that suits what they held before. Networks without
/// what the damage is about are passed over.
fn drawn(run: &mut Run, damage: Damage) -> Option<(Call, Tables)> {
    let Run { rng, reached, .. } = run;
    (0..20).find_map(|_| {
        let network = rng.pick(reached)?;
        let tables = damage(rng, network)?;
        Some((call(rng, network), tables))
    })
}

/// Any call, most often a delivery that was possible.
fn call(rng: &mut Rng, network: &Network) -> Call {
    let count = u32::from(network.count());
    let waiting: Vec<_> = network.queues.waiting().map(|it| (it.0, it.1)).collect();
    match (rng.between(0, 9), rng.pick(&waiting)) {
        (0..=3, Some(&(a, b))) => Call::Deliver(a.into(), b.into()),
        (4, _) => life::question(rng, count),
        (5, _) => life::trace(rng, count),
        _ => life::odd_call(rng, &View::of(&Tables::of(network))),
    }
}

fn any_unit(rng: &mut Rng, network: &Network) -> UnitNumber {
    rng.between(0, u32::from(network.count()) - 1) as UnitNumber
}

/// A unit and a neighbour of it.
fn some_link(rng: &mut Rng, network: &Network) -> Option<(UnitNumber, UnitNumber)> {
    let links: Vec<_> = network
        .units
        .iter()
        .flat_map(|unit| unit.neighbours.keys().map(|&k| (unit.number, k)))
        .collect();
    rng.pick(&links).copied()
}

/// Two units whose link is down; also a unit and itself.
fn some_gap(rng: &mut Rng, network: &Network) -> Option<(UnitNumber, UnitNumber)> {
    let (a, b) = (any_unit(rng, network), any_unit(rng, network));
    (!network.is_up(a, b)).then_some((a, b))
}

/// Takes a link down at one end, without an event.
fn forget_link(network: &mut Network, unit: UnitNumber, other: UnitNumber) {
    let unit = &mut network.units[usize::from(unit)];
    unit.neighbours.remove(&other);
    draw::set_successors(unit);
}
