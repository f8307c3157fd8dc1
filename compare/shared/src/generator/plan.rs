//! What is drawn once for each network of a generated script.

use crate::draw::{self, FEWEST, MOST};
use crate::rng::Rng;
use crate::shapes::{self, Pair, Shape, SHAPES};
use second::limits::HIGHEST_COST;
use second::tree::UnitNumber;

/// Where link costs come from.
#[derive(Clone, Copy, Debug)]
pub enum Costs {
    /// One and the same, for ties everywhere.
    Equal(u32),
    /// From 1 to 4, for many ties.
    Small,
    /// From 1 to the highest, with both ends drawn often.
    Whole,
    /// Only the ends of the range and what is next to them.
    Ends,
}

/// Which queue a delivery takes.
#[derive(Clone, Copy, Debug)]
pub enum Order {
    /// Any.
    Random,
    /// The one with the lowest sender.
    LowestFirst,
    /// The one with the highest sender.
    HighestFirst,
    /// Any but those to and from one unit, which must wait for the others.
    Starving(UnitNumber),
}

/// What happens next.
#[derive(Clone, Copy, Debug)]
pub enum Action {
    Deliver,
    Drain,
    Event,
    Burst,
    LinkFlap,
    CostFlap,
    Illegal,
    Malformed,
    Show,
    Restart,
}

/// How often each action comes, in parts of the sum.
pub type Weights = [(Action, u32); 10];

/// The weights for most lines being deliveries, with `faults` parts of illegal
/// and of malformed lines and `storms` parts of bursts and flaps.
fn weights(deliveries: u32, storms: u32, faults: u32) -> Weights {
    [
        (Action::Deliver, deliveries),
        (Action::Drain, 4),
        (Action::Event, 14),
        (Action::Burst, storms),
        (Action::LinkFlap, storms),
        (Action::CostFlap, storms),
        (Action::Illegal, faults),
        (Action::Malformed, faults),
        (Action::Show, 7),
        (Action::Restart, 1),
    ]
}

/// What is drawn once for each network.
pub struct Plan {
    pub count: u8,
    pub pairs: Vec<Pair>,
    pub costs: Costs,
    pub order: Order,
    pub weights: Weights,
}

impl Plan {
    pub fn draw(rng: &mut Rng) -> Plan {
        let count = match rng.between(0, 9) {
            0..=2 => rng.between(FEWEST, 4),
            3..=6 => rng.between(3, MOST / 2),
            _ => draw::count(rng),
        } as u8;
        let shape = *rng.pick(&SHAPES).unwrap_or(&Shape::Mesh);
        Plan {
            count,
            pairs: shapes::pairs(shape, count, rng),
            costs: draw_costs(rng),
            order: draw_order(count, rng),
            weights: draw_weights(rng),
        }
    }
}

fn draw_costs(rng: &mut Rng) -> Costs {
    match rng.between(0, 11) {
        0 | 1 => Costs::Equal(1),
        2 => Costs::Equal(HIGHEST_COST),
        3 => Costs::Equal(rng.between(1, HIGHEST_COST)),
        4..=7 => Costs::Small,
        8 | 9 => Costs::Whole,
        _ => Costs::Ends,
    }
}

fn draw_order(count: u8, rng: &mut Rng) -> Order {
    match rng.between(0, 5) {
        0 => Order::LowestFirst,
        1 => Order::HighestFirst,
        2 => Order::Starving(rng.between(0, u32::from(count) - 1) as UnitNumber),
        _ => Order::Random,
    }
}

fn draw_weights(rng: &mut Rng) -> Weights {
    match rng.between(0, 4) {
        0 => weights(150, 1, 1),
        1 => weights(40, 12, 2),
        2 => weights(40, 3, 20),
        _ => weights(70, 4, 4),
    }
}
