//! Whole networks, built from the hubs' functions alone with queues beside
//! them, event by event against the second program's network.

use crate::run::Run;
use crate::{product, table};
use second::limits::{message_length, ACCEPTED, FIRMWARE_ROOM, QUEUE_ROOM};
use second::message::NUMBER;
use second::network::Network;
use second::refusal::{Refusal, EMPTY_QUEUE, NOT_UP, QUEUE_FULL, UNIT};
use shared::draw;
use shared::rng::Rng;
use shared::shapes::{self, SHAPES};
use shared::tally::Difference;
use std::collections::{BTreeMap, VecDeque};
use std::fmt::Write as _;

const PART: &str = "network";

/// An event of a network, with the two units that it is about.
#[derive(Clone, Copy, Debug)]
enum Event {
    Up(u32, u32, u32, u32),
    Cost(u32, u32, u32),
    Down(u32, u32),
    Deliver(u32, u32),
}

/// Hubs with their tables, and the frames between them.
#[derive(Clone, PartialEq, Eq)]
struct Hubs {
    tables: Vec<Vec<u8>>,
    queues: BTreeMap<(u32, u32), VecDeque<Vec<u8>>>,
}

/// Some networks, so many events for each.
pub fn compare(run: &mut Run, networks: u32, events: u32) -> Result<(), Difference> {
    for number in 0..networks {
        let count = draw::count(&mut run.rng);
        let shape = SHAPES[number as usize % SHAPES.len()];
        let pairs = shapes::pairs(shape, count as u8, &mut run.rng);
        let mut wanted = pairs
            .into_iter()
            .map(|(a, b)| (u32::from(a), u32::from(b)))
            .collect();
        let mut hubs = Hubs::fresh(count)?;
        let Ok(mut network) = Network::fresh(count) else {
            return Err(Difference(format!("no fresh network of {count}\n")));
        };
        let deliveries = run.rng.between(20, 90);
        for _ in 0..events {
            let event = draw_event(&mut run.rng, &hubs, &mut wanted, deliveries);
            step(run, event, &mut hubs, &mut network)?;
        }
        run.reached.extend(hubs.tables);
    }
    Ok(())
}

/// A wanted link coming up, or in so many of 100 cases a delivery, or any other
/// event. Where deliveries are few, queues fill.
fn draw_event(rng: &mut Rng, hubs: &Hubs, wanted: &mut Vec<(u32, u32)>, deliveries: u32) -> Event {
    let count = hubs.tables.len() as u8;
    let waiting: Vec<(u32, u32)> = hubs.queues.keys().copied().collect();
    if rng.chance(30) {
        if let Some((a, b)) = wanted.pop() {
            return Event::Up(a, b, draw::cost(rng), draw::cost(rng));
        }
    }
    if rng.chance(deliveries) {
        if let Some(&(a, b)) = rng.pick(&waiting) {
            return Event::Deliver(a, b);
        }
    }
    let all: Vec<u8> = (0..count).collect();
    let a = draw::other(rng, count, count, &all);
    let at_a = hubs.queues.keys().filter(|it| it.0 == a);
    let busy: Vec<u8> = at_a.map(|it| it.1 as u8).collect();
    let near = if rng.chance(50) { &busy } else { &all };
    let b = draw::other(rng, count, (a % u32::from(count)) as u8, near);
    match rng.between(0, 9) {
        0..=1 => Event::Up(a, b, draw::cost(rng), draw::cost(rng)),
        2 => Event::Down(a, b),
        3 => Event::Deliver(a, b),
        _ => Event::Cost(a, b, draw::cost(rng)),
    }
}

/// One event on both sides; answers, tables and queues are compared.
fn step(
    run: &mut Run,
    event: Event,
    hubs: &mut Hubs,
    network: &mut Network,
) -> Result<(), Difference> {
    let mut after = hubs.clone();
    let answer = match after.event(event) {
        Ok(()) if after.some_queue_is_too_long() => Err(QUEUE_FULL),
        answer => answer,
    };
    if answer.is_ok() {
        *hubs = after;
    }
    let (kind, wanted) = match event {
        Event::Up(a, b, ca, cb) => ("up", network.up(a, b, ca, cb)),
        Event::Cost(a, b, cost) => ("cost", network.cost(a, b, cost)),
        Event::Down(a, b) => ("down", network.down(a, b)),
        Event::Deliver(a, b) => ("deliver", network.deliver(a, b)),
    };
    run.tallies.count(
        PART,
        kind,
        wanted.map_or_else(|refusal| refusal, |()| ACCEPTED),
    );
    let second = Hubs::of(network);
    if answer == wanted && *hubs == second {
        return Ok(());
    }
    let count = hubs.tables.len();
    let mut text = format!("difference in a network of {count}: {event:?}\n");
    let _ = writeln!(text, "product {answer:?}, second {wanted:?}");
    for (unit, (ours, theirs)) in hubs.tables.iter().zip(&second.tables).enumerate() {
        if let Some(place) = ours.iter().zip(theirs).position(|(a, b)| a != b) {
            let _ = writeln!(text, "unit {unit}, {}", table::place_name(place));
        }
    }
    if hubs.queues != second.queues {
        let _ = writeln!(text, "queues of the product {:02x?}", hubs.queues);
        let _ = writeln!(text, "queues of the second  {:02x?}", second.queues);
    }
    Err(Difference(text))
}

impl Hubs {
    fn fresh(count: u32) -> Result<Hubs, Difference> {
        let mut tables = vec![vec![0; table::BYTES]; count as usize];
        for (me, table) in (0..).zip(&mut tables) {
            let answer = product::fresh(count, me, table);
            if answer != ACCEPTED {
                return Err(Difference(format!("fresh unit {me} refused: {answer}\n")));
            }
        }
        Ok(Hubs {
            tables,
            queues: BTreeMap::new(),
        })
    }

    /// The tables and queues of the second program's network.
    fn of(network: &Network) -> Hubs {
        let count = u32::from(network.count());
        let mut queues = BTreeMap::new();
        for (from, to, queue) in network.queues.waiting() {
            let bytes = queue.iter().flat_map(|message| message.to_bytes(count));
            queues.insert((u32::from(from), u32::from(to)), bytes.collect());
        }
        Hubs {
            tables: network.units.iter().map(table::laid_out).collect(),
            queues,
        }
    }

    fn event(&mut self, event: Event) -> Result<(), Refusal> {
        match event {
            Event::Up(a, b, ca, cb) => {
                let first = self.at(a, |table, out| product::up(table, b, ca, out));
                let other = self.at(b, |table, out| product::up(table, a, cb, out));
                lowest(first, other)
            }
            Event::Cost(a, b, cost) => {
                self.is_unit(b)?;
                self.at(a, |table, out| product::cost(table, b, cost, out))
            }
            Event::Down(a, b) => {
                self.queues.remove(&(a, b));
                self.queues.remove(&(b, a));
                let first = self.at(a, |table, out| product::down(table, b, out));
                let other = self.at(b, |table, out| product::down(table, a, out));
                lowest(first, other)
            }
            Event::Deliver(a, b) => {
                let queue = self.queues.get_mut(&(a, b));
                let Some(first) = queue.and_then(VecDeque::pop_front) else {
                    // No bytes are no message: what is refused before that
                    // comes before the empty queue too.
                    let answer = self.at(b, |table, out| product::message(table, a, &[], out));
                    return Err(answer
                        .err()
                        .filter(|&no| no <= NOT_UP)
                        .unwrap_or(EMPTY_QUEUE));
                };
                self.queues.retain(|_, queue| !queue.is_empty());
                self.at(b, |table, out| product::message(table, a, &first, out))
            }
        }
    }

    fn is_unit(&self, unit: u32) -> Result<usize, Refusal> {
        let place = unit as usize;
        (place < self.tables.len()).then_some(place).ok_or(UNIT)
    }

    /// An event at one unit; its messages go into their queues.
    fn at(
        &mut self,
        unit: u32,
        event: impl Fn(&mut [u8], &mut [u8]) -> u32,
    ) -> Result<(), Refusal> {
        let place = self.is_unit(unit)?;
        let mut out = [0; FIRMWARE_ROOM];
        let answer = event(&mut self.tables[place], &mut out);
        if answer < ACCEPTED {
            return Err(answer);
        }
        let mut rest = &out[..(answer - ACCEPTED) as usize];
        while let [to, message @ ..] = rest {
            let number = message.get(NUMBER);
            let length = number.map_or(0, |&number| message_length(number.into()));
            let (message, others) = message.split_at(length.clamp(0, message.len()));
            let queue = self.queues.entry((unit, u32::from(*to))).or_default();
            queue.push_back(message.to_vec());
            rest = others;
        }
        Ok(())
    }

    fn some_queue_is_too_long(&self) -> bool {
        self.queues.values().any(|queue| queue.len() > QUEUE_ROOM)
    }
}

/// "The lowest number that applies is given", of two ends.
fn lowest(a: Result<(), Refusal>, b: Result<(), Refusal>) -> Result<(), Refusal> {
    match (a, b) {
        (Err(a), Err(b)) => Err(a.min(b)),
        (a, b) => a.and(b),
    }
}
