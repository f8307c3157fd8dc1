//! Frames that are driven to and fro from fresh tables on: whichever of two units
//! has it, its own link to the destination becomes the dearer one, so that the
//! other is a successor. So a frame meets both units again and again until its
//! last hop, as frames do "while tables change".

use crate::call::{fields, Call};
use crate::site::Site;
use networks::call::Call as NetworkCall;
use networks::run::Run;
use second::limits::LAST_HOP;
use second::tree::UnitNumber;
use shared::tally::Difference;

/// The part of the comparison.
pub const PART: &str = "driven";

/// The cost that makes a unit hand its frames to the other.
const DEAR: u32 = 100;

/// So many frames, one after the other.
pub fn compare(run: &mut Run, frames: u32) -> Result<(), Difference> {
    for number in 0..frames {
        drive(run, number % 2 == 0)?;
    }
    Ok(())
}

/// One frame; at its last hop it reaches its destination or doesn't.
fn drive(run: &mut Run, is_delivered: bool) -> Result<(), Difference> {
    let count = run.rng.between(3, 5);
    let mut units: Vec<u32> = (0..count).collect();
    run.rng.shuffle(&mut units);
    let [mut at, mut other, destination] = [units[0], units[1], units[2]];
    let mut site = Site::fresh(run, PART, count)?;
    for (a, b) in [(at, other), (at, destination), (other, destination)] {
        site.network_step(run, PART, &NetworkCall::Up(a, b, 1, 1))?;
    }
    // Some frames stand before it, so that its place is any.
    let before = run.rng.between(0, 3);
    for _ in 0..=before {
        site.step(run, PART, Call::Enter(7, at, destination))?;
    }
    for hop in 1..=u32::from(LAST_HOP) {
        site.network_step(run, PART, &NetworkCall::Cost(other, destination, 1))?;
        site.network_step(run, PART, &NetworkCall::Cost(at, destination, DEAR))?;
        deliver_all(run, &mut site)?;
        let is_last = hop == u32::from(LAST_HOP);
        let to = if is_last && is_delivered {
            destination
        } else {
            other
        };
        site.step(run, PART, Call::Move(before, to))?;
        for question in fields(before) {
            site.step(run, PART, question)?;
        }
        (at, other) = (other, at);
    }
    site.ask_all(run, PART)
}

/// Delivers in any order until every queue is empty.
fn deliver_all(run: &mut Run, site: &mut Site) -> Result<(), Difference> {
    loop {
        let waiting = site.network.queues.waiting();
        let waiting: Vec<(UnitNumber, UnitNumber)> = waiting.map(|it| (it.0, it.1)).collect();
        let Some(&(from, to)) = run.rng.pick(&waiting) else {
            return Ok(());
        };
        site.network_step(run, PART, &NetworkCall::Deliver(from.into(), to.into()))?;
    }
}
