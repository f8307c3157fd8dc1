//! Lives of single units: a fresh table and thousands of events, each compared
//! with the second program, which keeps its own unit all along.

use crate::call::Call;
use crate::run::{Outcome, Run};
use crate::table::EACH;
use crate::{border, event, product, table};
use second::limits::ACCEPTED;
use second::unit::Unit;
use shared::draw::{self, FEWEST, MOST};
use shared::tally::Difference;

const PART: &str = "life";

/// After so many events all questions are asked.
const ASKED_EVERY: u32 = 16;

/// Of so many events one leaves a table that is damaged later.
const KEPT_EVERY: u32 = 20;

/// The lives of some units.
pub fn compare(run: &mut Run, lives: u32, events: u32) -> Result<(), Difference> {
    for _ in 0..lives {
        let count = draw::count(&mut run.rng);
        let me = run.rng.between(0, count - 1);
        live(run, count, me, events)?;
    }
    Ok(())
}

/// Fresh tables for legal and illegal numbers, of any length.
pub fn compare_fresh(run: &mut Run) -> Result<(), Difference> {
    // Some that are legal once cut to 8 or 16 bits.
    let far = [255, 256, 256 + FEWEST, (1 << 16) + FEWEST, u32::MAX];
    let numbers = || (0..MOST + 4).chain(far);
    let whole = table::BYTES;
    let lengths = [
        0,
        EACH,
        whole - EACH,
        whole - 1,
        whole,
        whole,
        whole + 1,
        whole + EACH,
    ];
    for (count, me) in numbers().flat_map(|count| numbers().map(move |me| (count, me))) {
        for length in lengths {
            let before = [run.buffer(), run.buffer()].concat();
            let (mut ours, mut theirs) = (before.clone(), before);
            let answer = product::fresh(count, me, &mut ours[..length]);
            let wanted = border::fresh(count, me, &mut theirs[..length]);
            run.tallies.count(PART, "fresh", wanted);
            if answer != wanted || ours != theirs {
                let place = ours.iter().zip(&theirs).position(|(a, b)| a != b);
                return Err(Difference(format!(
                    "difference: puntclover_hub_fresh, count {count}, me {me}, {length} bytes: product \
                     answers {answer}, second {wanted}; first differing byte {place:?}\n"
                )));
            }
        }
    }
    Ok(())
}

fn live(run: &mut Run, count: u32, me: u32, events: u32) -> Result<(), Difference> {
    let mut bytes = vec![0xa5; table::BYTES];
    let answer = product::fresh(count, me, &mut bytes);
    let Ok(mut unit) = Unit::fresh(count, me) else {
        return Err(Difference(format!("no fresh unit {me} of {count}\n")));
    };
    if answer != ACCEPTED || bytes != table::laid_out(&unit) {
        return Err(Difference(format!(
            "difference: fresh unit {me} of {count}\n"
        )));
    }
    for number in 0..events {
        let call = event::draw(&mut run.rng, &unit);
        bytes = step(run, &call, bytes, &mut unit)?;
        ask(run, &bytes, &mut unit, number % ASKED_EVERY == 0)?;
        if number % KEPT_EVERY == KEPT_EVERY / 2 {
            run.reached.push(bytes.clone());
        }
    }
    Ok(())
}

/// One event on both sides; answers the table after it.
fn step(
    run: &mut Run,
    call: &Call,
    bytes: Vec<u8>,
    unit: &mut Unit,
) -> Result<Vec<u8>, Difference> {
    let room = event::room(&mut run.rng);
    let out = run.buffer();
    let mut product = Outcome {
        answer: 0,
        table: bytes.clone(),
        out: out.clone(),
    };
    product.answer = call.of_product(&mut product.table, &mut product.out[..room]);
    let mut second = Outcome {
        answer: 0,
        table: Vec::new(),
        out,
    };
    second.answer = call.of_second(unit, &mut second.out[..room]);
    second.table = table::laid_out(unit);
    run.compare(PART, call, &bytes, room, [&product, &second])?;
    Ok(product.table)
}

/// Questions on both sides: about one destination, or about all and some that
/// are none.
fn ask(run: &mut Run, bytes: &[u8], unit: &mut Unit, about_all: bool) -> Result<(), Difference> {
    let count = u32::from(unit.count);
    let destinations = if about_all {
        (0..count + 2).chain([MOST, 255, 256, u32::MAX]).collect()
    } else {
        vec![run.rng.between(0, count)]
    };
    let mut calls = vec![Call::State];
    for to in destinations {
        calls.extend([
            Call::Distance(to),
            Call::Feasible(to),
            Call::Successors(to),
            Call::Link(to),
            Call::Awaits(to),
        ]);
    }
    for call in calls {
        let mut product = Outcome {
            answer: 0,
            table: bytes.to_vec(),
            out: Vec::new(),
        };
        let mut second = product.clone();
        product.answer = call.of_product(&mut product.table, &mut []);
        second.answer = call.of_second(unit, &mut []);
        run.compare(PART, &call, bytes, 0, [&product, &second])?;
    }
    Ok(())
}
