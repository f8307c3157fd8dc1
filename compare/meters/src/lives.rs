//! Lives of networks with a meter over them: fresh tables and hundreds of calls
//! on either, each compared with the second program, which keeps its own network
//! and meter all along.

use crate::draw;
use crate::site::Site;
use crate::{border, product};
use networks::life::{self, Life};
use networks::run::Run;
use networks::view::View;
use second::meter::Meter;
use second::meter_table::BYTES;
use second::network::Network;
use second::table_bytes::EACH;
use shared::tally::Difference;

/// The part of the comparison.
pub const PART: &str = "life";

/// Calls on the network with bad numbers, in so many of 100 cases.
const ODD: u32 = 4;

/// So many bytes more than the table has, before and after what is lent.
const AROUND: usize = 8;

/// Networks that calls have reached, each with its meter.
pub type Reached = Vec<(Network, Meter)>;

/// Fresh meters in slices of any length that held anything before. What lies
/// around the slices stays as well.
pub fn compare_fresh(run: &mut Run) -> Result<(), Difference> {
    for length in [
        0,
        1,
        BYTES - EACH,
        BYTES - 1,
        BYTES,
        BYTES + 1,
        BYTES + EACH,
    ] {
        let mut ours = vec![0; BYTES + 2 * AROUND];
        ours.fill_with(|| run.rng.next_bits() as u8);
        let mut theirs = ours.clone();
        let lent = AROUND..AROUND + length;
        let answer = product::fresh(&mut ours[lent.clone()]);
        let wanted = border::fresh(&mut theirs[lent]);
        run.count(PART, "fresh", wanted);
        if answer != wanted || ours != theirs {
            let byte = ours.iter().zip(&theirs).position(|(a, b)| a != b);
            return Err(run.difference(format!(
                "{PART}: puntclover_meter_fresh in {length} bytes: product answers {answer}, \
                 second {wanted}; first differing byte {byte:?}, where the slice begins at {AROUND}"
            )));
        }
    }
    Ok(())
}

/// The lives of some networks, so many calls each; every so many lives all
/// questions are asked at the end and once between.
pub fn compare(
    run: &mut Run,
    lives: u32,
    calls: u32,
    asked_every: u32,
) -> Result<Reached, Difference> {
    let mut reached = Reached::new();
    for number in 0..lives {
        let is_asked = number % asked_every == asked_every - 1;
        live(run, number, calls, is_asked, &mut reached)?;
    }
    Ok(reached)
}

fn live(
    run: &mut Run,
    number: u32,
    calls: u32,
    is_asked: bool,
    reached: &mut Reached,
) -> Result<(), Difference> {
    let (count, shape) = life::count_and_shape(number);
    let mut life = Life::draw(&mut run.rng, count, shape, ODD);
    let temper = draw::temper(&mut run.rng);
    let events = *run.rng.pick(&[25, 50, 75]).unwrap_or(&50);
    let mut site = Site::fresh(run, PART, count)?;
    let middle = run.rng.between(0, calls - 1);
    for number in 0..calls {
        if run.rng.chance(events) {
            let event = life.next(&mut run.rng, &View::of(&site.tables));
            site.network_step(run, PART, &event)?;
        } else {
            let change = draw::change(&mut run.rng, temper, &site.network, &site.meter);
            site.step(run, PART, change)?;
        }
        if number % 4 == 0 {
            let question = draw::question(&mut run.rng, &site.meter);
            site.step(run, PART, question)?;
        }
        if number % 100 == 99 {
            reached.push((site.network.clone(), site.meter.clone()));
        }
        if is_asked && (number == middle || number == calls - 1) {
            site.ask_all(run, PART)?;
        }
    }
    Ok(())
}
