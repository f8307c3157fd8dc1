//! Fit tables that no sequence of calls from fresh ones has reached: meters made
//! up over networks that are reached, and over made-up ones, in which frames go
//! round in circles until their last hop; meters nearly all of whose places are
//! taken, and such that nearly no byte may enter any more.

use crate::call::Call;
use crate::draw::{self, Temper};
use crate::lives::Reached;
use crate::site::Site;
use networks::run::Run;
use networks::unreached;
use second::limits::{FRAMES, LARGEST_FRAME, LAST_HOP, MOST_ENTERED};
use second::meter::Meter;
use second::network::Network;
use shared::rng::Rng;
use shared::tally::Difference;

/// The parts of the comparison.
pub const PARTS: [&str; 3] = ["made up", "full", "near 10^15"];

/// So many meters of each part, and so many calls on each that is made up.
pub fn compare(
    run: &mut Run,
    reached: &Reached,
    meters: u32,
    calls: u32,
) -> Result<(), Difference> {
    for _ in 0..meters {
        let network = network(&mut run.rng, reached);
        let meter = draw::meter(&mut run.rng, network.count().into());
        made_up(run, Site::of(network, meter), calls)?;
        let network = network_reached(&mut run.rng, reached);
        full(run, Site::of(network, Meter::default()))?;
        let network = network_reached(&mut run.rng, reached);
        let meter = draw::meter(&mut run.rng, network.count().into());
        near_the_limit(run, Site::of(network, meter))?;
    }
    Ok(())
}

/// A made-up network, or one that was reached.
fn network(rng: &mut Rng, reached: &Reached) -> Network {
    match rng.chance(60) {
        true => unreached::made_up(rng),
        false => network_reached(rng, reached),
    }
}

fn network_reached(rng: &mut Rng, reached: &Reached) -> Network {
    let network = rng.pick(reached).map(|(network, _)| network.clone());
    network.unwrap_or_else(|| unreached::made_up(rng))
}

/// Calls on a made-up meter, moves most often; now and then one frame moves on
/// until it isn't held any more.
fn made_up(run: &mut Run, mut site: Site, calls: u32) -> Result<(), Difference> {
    let temper = Temper {
        enters: 15,
        moves: 75,
        drops: 10,
        odd: 10,
    };
    for _ in 0..calls {
        let change = draw::change(&mut run.rng, temper, &site.network, &site.meter);
        site.step(run, PARTS[0], change)?;
        let question = draw::question(&mut run.rng, &site.meter);
        site.step(run, PARTS[0], question)?;
    }
    if let Some(place) = site.meter.frames.keys().next().copied() {
        for _ in 0..LAST_HOP {
            let place = place.into();
            let to = draw::next_unit(&mut run.rng, &site.network, &site.meter, place);
            let before = site.meter.held(place);
            site.step(run, PARTS[0], Call::Move(place, to))?;
            // It is delivered or dropped, or there is no successor.
            if site.meter.held(place).is_err() || site.meter.held(place) == before {
                break;
            }
        }
    }
    Ok(())
}

/// All places are taken one after the other, and one frame more enters. Then
/// some are freed and taken again.
fn full(run: &mut Run, mut site: Site) -> Result<(), Difference> {
    let part = PARTS[1];
    let count = site.count();
    let enter = |rng: &mut Rng| {
        let unit = draw::unit(rng, count);
        let destination = (unit + rng.between(1, count - 1)) % count;
        Call::Enter(draw::size(rng), unit, destination)
    };
    for _ in 0..=FRAMES {
        let call = enter(&mut run.rng);
        site.step(run, part, call)?;
    }
    // Delivered at once it would take no place.
    let unit = draw::unit(&mut run.rng, count);
    site.step(run, part, Call::Enter(1, unit, unit))?;
    let odd = draw::odd_change(&mut run.rng, &site.network, &site.meter);
    site.step(run, part, odd)?;
    for _ in 0..run.rng.between(1, 12) {
        let place = draw::odd_place(&mut run.rng, &site.meter);
        site.step(run, part, Call::Drop(place))?;
    }
    while site.meter.frames.len() < FRAMES {
        let call = enter(&mut run.rng);
        site.step(run, part, call)?;
    }
    let question = draw::question(&mut run.rng, &site.meter);
    site.step(run, part, question)
}

/// Sizes around what may still enter, and any others.
fn near_the_limit(run: &mut Run, mut site: Site) -> Result<(), Difference> {
    let part = PARTS[2];
    // Some place is free, and what is left is less than a frame or two.
    site.meter.frames.pop_last();
    let (held, left) = (
        site.meter.bytes_held(),
        u64::from(run.rng.between(0, LARGEST_FRAME + 10)),
    );
    site.meter.entered = MOST_ENTERED - left;
    site.meter.dropped = run.rng.next_bits() % (MOST_ENTERED - left - held);
    site.meter.delivered = MOST_ENTERED - left - held - site.meter.dropped;
    site = Site::of(site.network, site.meter);
    let count = site.count();
    for _ in 0..6 {
        let left = (MOST_ENTERED - site.meter.entered) as u32;
        let sizes = [
            left.saturating_sub(1),
            left,
            left,
            left + 1,
            left + 1,
            0,
            1,
            LARGEST_FRAME,
            LARGEST_FRAME + 1,
            u32::MAX,
        ];
        let size = *run.rng.pick(&sizes).unwrap_or(&left);
        let (unit, destination) = (
            draw::unit(&mut run.rng, count),
            draw::unit(&mut run.rng, count),
        );
        site.step(run, part, Call::Enter(size, unit, destination))?;
        let question = draw::question(&mut run.rng, &site.meter);
        site.step(run, part, question)?;
    }
    Ok(())
}
