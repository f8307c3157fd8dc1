//! The next call in a network's life.
//!
//! A life has a shape, costs and a temper, drawn once: how often messages are
//! delivered and from which queues, and how often a call has bad numbers. What
//! happens is planned a few calls ahead, so that links flap and costs change
//! again and again while messages are under way. Now and then there is peace
//! until all is delivered.

use crate::call::{Call, Trace, PATH};
use crate::view::{Link, Pair, View};
use second::limits::HIGHEST_COST;
use shared::draw::{self, FEWEST, MOST};
use shared::rng::Rng;
use shared::shapes::{self, Shape, SHAPES};
use std::collections::VecDeque;

/// The lives in which each legal count comes once in each shape.
pub const ROUND: u32 = COUNTS * SHAPES.len() as u32;

/// How many counts are legal.
const COUNTS: u32 = MOST - FEWEST + 1;

/// Where link costs come from.
#[derive(Clone, Copy)]
enum Costs {
    /// All the same, for ties everywhere.
    One,
    /// Most often one of few.
    Few,
    /// Any.
    Any,
    /// The ends of the range.
    Ends,
}

/// Which queue a delivery takes.
#[derive(Clone, Copy)]
enum Order {
    Random,
    LowestFirst,
    HighestFirst,
    /// Any but those to and from one unit, which has to wait.
    Starving(u32),
}

/// A network's life.
pub struct Life {
    costs: Costs,
    order: Order,
    deliveries: u32,
    odd: u32,
    planned: VecDeque<Call>,
    /// Nothing but deliveries happens until none is possible.
    is_peace: bool,
}

/// The count and the shape of a life, by its number: all come in turn.
pub fn count_and_shape(number: u32) -> (u32, Shape) {
    let shape = number / COUNTS % SHAPES.len() as u32;
    (FEWEST + number % COUNTS, SHAPES[shape as usize])
}

impl Life {
    /// A life that begins with the links of a shape coming up; calls have bad
    /// numbers in so many of 100 cases.
    pub fn draw(rng: &mut Rng, count: u32, shape: Shape, odd: u32) -> Life {
        let costs = [Costs::One, Costs::Few, Costs::Few, Costs::Any, Costs::Ends];
        let starved = rng.between(0, count - 1);
        let orders = [
            Order::Random,
            Order::Random,
            Order::LowestFirst,
            Order::HighestFirst,
            Order::Starving(starved),
        ];
        let mut life = Life {
            costs: *rng.pick(&costs).unwrap_or(&Costs::Few),
            order: *rng.pick(&orders).unwrap_or(&Order::Random),
            deliveries: *rng.pick(&[20, 45, 70, 85, 95]).unwrap_or(&70),
            odd,
            planned: VecDeque::new(),
            is_peace: false,
        };
        for (a, b) in shapes::pairs(shape, count as u8, rng) {
            life.plan_up(rng, (a.into(), b.into()));
        }
        life
    }

    /// The next call.
    pub fn next(&mut self, rng: &mut Rng, view: &View) -> Call {
        if rng.chance(self.odd) {
            return odd_call(rng, view);
        }
        if self.is_peace || rng.chance(self.deliveries) {
            if let Some((a, b)) = self.queue(rng, view) {
                return Call::Deliver(a, b);
            }
            self.is_peace = false;
        }
        if self.planned.is_empty() {
            self.plan(rng, view);
        }
        let next = self.planned.pop_front();
        // What was planned has happened.
        self.is_peace = self.planned.is_empty() && rng.chance(10);
        next.unwrap_or_else(|| odd_call(rng, view))
    }

    /// A queue that holds a message.
    fn queue(&self, rng: &mut Rng, view: &View) -> Option<Pair> {
        let busy = view.busy();
        match self.order {
            Order::Random => rng.pick(&busy).copied(),
            Order::LowestFirst => busy.first().copied(),
            Order::HighestFirst => busy.last().copied(),
            Order::Starving(unit) => {
                let others = busy.iter().filter(|(a, b)| *a != unit && *b != unit);
                let others: Vec<Pair> = others.copied().collect();
                rng.pick(&others).or(busy.first()).copied()
            }
        }
    }

    /// What happens besides deliveries.
    fn plan(&mut self, rng: &mut Rng, view: &View) {
        let pair = any_pair(rng, view.count);
        let Some(link) = some_link(rng, view) else {
            return self.plan_up(rng, pair);
        };
        match rng.between(0, 9) {
            0..=2 => self.plan_cost(rng, link.ends),
            3..=4 => {
                let (a, b) = link.ends;
                for _ in 0..rng.between(2, 6) {
                    let ends = if rng.chance(50) { (a, b) } else { (b, a) };
                    self.plan_cost(rng, ends);
                }
            }
            5..=6 => {
                for _ in 0..rng.between(1, 4) {
                    self.plan_down(link.ends);
                    self.plan_up(rng, link.ends);
                }
            }
            7 => self.plan_isolation(rng, view, link.ends.0),
            8 => self.planned.push_back(same_cost(link)),
            _ if view.is_up(pair) => self.plan_down(pair),
            _ => self.plan_up(rng, pair),
        }
    }

    /// All links of a unit go down, one after the other, and up again.
    fn plan_isolation(&mut self, rng: &mut Rng, view: &View, unit: u32) {
        let links = view.links.iter().filter(|link| link.ends.0 == unit);
        let mut links: Vec<Pair> = links.map(|link| link.ends).collect();
        links.iter().for_each(|&link| self.plan_down(link));
        rng.shuffle(&mut links);
        links.iter().for_each(|&link| self.plan_up(rng, link));
    }

    fn plan_up(&mut self, rng: &mut Rng, (a, b): Pair) {
        let one = self.cost(rng);
        let back = if rng.chance(50) { one } else { self.cost(rng) };
        self.planned.push_back(Call::Up(a, b, one, back));
    }

    fn plan_cost(&mut self, rng: &mut Rng, (a, b): Pair) {
        let cost = self.cost(rng);
        self.planned.push_back(Call::Cost(a, b, cost));
    }

    fn plan_down(&mut self, (a, b): Pair) {
        self.planned.push_back(Call::Down(a, b));
    }

    /// A legal cost.
    fn cost(&self, rng: &mut Rng) -> u32 {
        match self.costs {
            Costs::One if rng.chance(90) => 1,
            Costs::One | Costs::Few => draw::legal_cost(rng).into(),
            Costs::Any => rng.between(1, HIGHEST_COST),
            Costs::Ends => {
                let ends = [1, 2, HIGHEST_COST - 1, HIGHEST_COST];
                *rng.pick(&ends).unwrap_or(&1)
            }
        }
    }
}

/// "The same cost again is a legal event."
fn same_cost(link: Link) -> Call {
    Call::Cost(link.ends.0, link.ends.1, link.cost)
}

/// Two different units.
fn any_pair(rng: &mut Rng, count: u32) -> Pair {
    let a = rng.between(0, count - 1);
    (a, (a + rng.between(1, count - 1)) % count)
}

/// A link that is up, most often one with messages under way.
fn some_link(rng: &mut Rng, view: &View) -> Option<Link> {
    let busy: Vec<Link> = view.links.iter().filter(|it| it.is_busy).copied().collect();
    let from = if rng.chance(70) && !busy.is_empty() {
        &busy
    } else {
        &view.links
    };
    rng.pick(from).copied()
}

/// A call with any numbers: units that are none, equal ends, links that are up
/// or down, empty queues, costs that are none.
pub fn odd_call(rng: &mut Rng, view: &View) -> Call {
    let count = view.count as u8;
    let (a, b) = any_pair(rng, view.count);
    let (a, b) = some_link(rng, view)
        .filter(|_| rng.chance(50))
        .map_or((a, b), |link| link.ends);
    let a = draw::other(rng, count, b as u8, &[a as u8]);
    let b = draw::other(rng, count, (a % view.count) as u8, &[b as u8]);
    match rng.between(0, 3) {
        0 => Call::Up(a, b, draw::cost(rng), draw::cost(rng)),
        1 => Call::Cost(a, b, draw::cost(rng)),
        2 if rng.chance(30) => Call::Down(a, b),
        _ => Call::Deliver(a, b),
    }
}

/// A question about any two units, sometimes none.
pub fn question(rng: &mut Rng, count: u32) -> Call {
    let (i, j) = (any_unit(rng, count), any_unit(rng, count));
    match rng.between(0, 5) {
        0 => Call::State(i),
        1 => Call::Distance(i, j),
        2 => Call::Feasible(i, j),
        3 => Call::Successors(i, j),
        4 => Call::Link(i, j),
        _ => Call::Awaits(i, j),
    }
}

/// A trace between any two units with any choices, sometimes too few of them or
/// a path that is too short.
pub fn trace(rng: &mut Rng, count: u32) -> Call {
    let choices = match rng.between(0, 19) {
        0 => count - 2,
        1 => rng.between(0, count - 1),
        2..=4 => rng.between(count - 1, count + 8),
        _ => count - 1,
    };
    let places = match rng.between(0, 19) {
        0 => count - 1,
        1 => rng.between(0, count),
        2..=4 => rng.between(count, PATH as u32),
        _ => count,
    };
    let few = rng.chance(50);
    let choice = |rng: &mut Rng| {
        if few {
            rng.between(0, 3)
        } else {
            rng.between(0, 255)
        }
    };
    Call::Trace(Trace {
        start: any_unit(rng, count),
        destination: any_unit(rng, count),
        choices: (0..choices).map(|_| choice(rng) as u8).collect(),
        places: places as usize,
    })
}

/// A unit's number, seldom one that is none.
fn any_unit(rng: &mut Rng, count: u32) -> u32 {
    if rng.chance(97) {
        return rng.between(0, count - 1);
    }
    let odd = [count, count + 1, MOST, 255, 256, 1 << 16, u32::MAX];
    *rng.pick(&odd).unwrap_or(&count)
}
