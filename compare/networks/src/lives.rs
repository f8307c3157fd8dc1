//! Lives of networks: fresh tables and hundreds of calls, each compared with the
//! second program, which keeps its own network all along.

use crate::call::Call;
use crate::life::{self, Life};
use crate::run::Run;
use crate::view::View;
use crate::{border, product};
use second::limits::ACCEPTED;
use second::network::Network;
use second::network_tables::{Tables, QUEUES_BYTES, UNITS_BYTES};
use second::table_bytes::EACH;
use shared::draw::{FEWEST, MOST};
use shared::tally::Difference;

const PART: &str = "life";

/// Calls with bad numbers, in so many of 100 cases.
const ODD: u32 = 8;

/// So many bytes more than the tables have, before and after what is lent.
const AROUND: usize = 8;

/// Fresh networks for legal and illegal counts, in slices of any length. What
/// lies around the slices stays as well.
pub fn compare_fresh(run: &mut Run) -> Result<(), Difference> {
    // Some that are legal once cut to 8 or 16 bits.
    let far = [255, 256, 256 + FEWEST, (1 << 16) + FEWEST, u32::MAX];
    let counts = (0..MOST + 4).chain(far);
    for count in counts {
        for units in lengths(UNITS_BYTES) {
            for queues in lengths(QUEUES_BYTES) {
                fresh(run, count, units, queues)?;
            }
        }
    }
    Ok(())
}

/// Lengths around the fixed one.
fn lengths(whole: usize) -> [usize; 7] {
    [
        0,
        1,
        whole - EACH,
        whole - 1,
        whole,
        whole + 1,
        whole + EACH,
    ]
}

/// One fresh network in slices of these lengths that held anything before.
fn fresh(run: &mut Run, count: u32, units: usize, queues: usize) -> Result<(), Difference> {
    let some = run.rng.next_bits() as usize;
    let noise = |whole: usize| (0..whole + 2 * AROUND).map(|place| (place ^ some) as u8);
    let mut ours = Tables {
        units: noise(UNITS_BYTES).collect(),
        queues: noise(QUEUES_BYTES).collect(),
    };
    let mut theirs = ours.clone();
    let lent = [units, queues].map(|length| AROUND..AROUND + length);
    let [units, queues] = lent.clone();
    let answer = product::fresh(count, &mut ours.units[units], &mut ours.queues[queues]);
    let [units, queues] = lent.clone();
    let wanted = border::fresh(count, &mut theirs.units[units], &mut theirs.queues[queues]);
    run.count(PART, "fresh", wanted);
    if answer == wanted && ours == theirs {
        return Ok(());
    }
    let differing = |a: &[u8], b: &[u8]| a.iter().zip(b).position(|(a, b)| a != b);
    let unit = differing(&ours.units, &theirs.units);
    let queue = differing(&ours.queues, &theirs.queues);
    let [units, queues] = lent.map(|it| it.len());
    Err(run.difference(format!(
        "{PART}: puntclover_network_fresh({count}) in {units} and {queues} bytes: product answers {answer}, \
         second {wanted}; first differing byte of the units {unit:?}, of the queues {queue:?}, \
         where the slices begin at {AROUND}"
    )))
}

/// The lives of some networks, so many events each; every so many lives all
/// questions are asked at the end and once between.
pub fn compare(run: &mut Run, lives: u32, events: u32, asked_every: u32) -> Result<(), Difference> {
    for number in 0..lives {
        let is_asked = number % asked_every == asked_every - 1;
        live(run, number, events, is_asked)?;
    }
    Ok(())
}

fn live(run: &mut Run, number: u32, events: u32, is_asked: bool) -> Result<(), Difference> {
    let (count, shape) = life::count_and_shape(number);
    let mut life = Life::draw(&mut run.rng, count, shape, ODD);
    let mut tables = Tables::zeros();
    let answer = product::fresh(count, &mut tables.units, &mut tables.queues);
    run.count(PART, "fresh", answer);
    let fresh = Network::fresh(count).ok();
    let is_alike = |it: &Network| answer == ACCEPTED && tables == Tables::of(it);
    let Some(mut network) = fresh.filter(is_alike) else {
        return Err(run.difference(format!("{PART}: fresh network of {count}")));
    };
    let middle = run.rng.between(0, events - 1);
    for event in 0..events {
        let call = life.next(&mut run.rng, &View::of(&tables));
        run.step(PART, &call, &mut tables, &mut network)?;
        if event % 4 == 0 {
            let question = life::question(&mut run.rng, count);
            run.step(PART, &question, &mut tables, &mut network)?;
        }
        if event % 4 == 2 {
            let trace = life::trace(&mut run.rng, count);
            run.step(PART, &trace, &mut tables, &mut network)?;
        }
        if event % 50 == 49 {
            run.reached.push(network.clone());
        }
        if is_asked && (event == middle || event == events - 1) {
            ask_all(run, &mut tables, &mut network)?;
        }
    }
    Ok(())
}

/// All questions about all pairs of units and some that are none.
fn ask_all(run: &mut Run, tables: &mut Tables, network: &mut Network) -> Result<(), Difference> {
    let count = u32::from(network.count());
    let units = || (0..=count).chain([u32::MAX]);
    for i in units() {
        run.step(PART, &Call::State(i), tables, network)?;
        for j in units() {
            for call in [
                Call::Distance(i, j),
                Call::Feasible(i, j),
                Call::Successors(i, j),
                Call::Link(i, j),
                Call::Awaits(i, j),
            ] {
                run.step(PART, &call, tables, network)?;
            }
        }
    }
    Ok(())
}
