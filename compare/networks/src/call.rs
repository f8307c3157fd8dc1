//! A call with its arguments, made on either side.

use crate::border;
use crate::product::{self, ARRIVED, CIRCLING, STRANDED};
use second::limits::{ACCEPTED, UNITS};
use second::network::Network;
use second::network_tables::Tables;
use std::fmt;

/// The bytes of the buffer of which the start is lent as a path.
pub const PATH: usize = UNITS + 8;

/// A call on a network's tables: an event, a question or a trace.
#[derive(Clone, Debug)]
pub enum Call {
    /// The link between two units comes up at two costs.
    Up(u32, u32, u32, u32),
    /// The cost from a unit to another changes.
    Cost(u32, u32, u32),
    /// The link between two units goes down.
    Down(u32, u32),
    /// The first message from a unit reaches another.
    Deliver(u32, u32),
    /// Whether a unit is ACTIVE.
    State(u32),
    /// The distance at a unit of a destination.
    Distance(u32, u32),
    /// The feasible distance at a unit of a destination.
    Feasible(u32, u32),
    /// The successors of a unit for a destination.
    Successors(u32, u32),
    /// The cost of the link from a unit to another.
    Link(u32, u32),
    /// Whether a unit awaits an acknowledgment of another.
    Awaits(u32, u32),
    /// A trace.
    Trace(Trace),
}

/// The arguments of a trace.
#[derive(Clone, Debug)]
pub struct Trace {
    /// The first unit.
    pub start: u32,
    /// The unit to be reached.
    pub destination: u32,
    /// The choice bytes.
    pub choices: Vec<u8>,
    /// How many bytes are lent for the path.
    pub places: usize,
}

impl Call {
    /// Whether it may change the tables.
    pub fn is_event(&self) -> bool {
        matches!(
            self,
            Call::Up(..) | Call::Cost(..) | Call::Down(..) | Call::Deliver(..)
        )
    }

    /// What is called; of an accepted trace its ending too.
    pub fn kind(&self, answer: u32) -> &'static str {
        match self {
            Call::Up(..) => "up",
            Call::Cost(..) => "cost",
            Call::Down(..) => "down",
            Call::Deliver(..) => "deliver",
            Call::State(..) => "state",
            Call::Distance(..) => "distance",
            Call::Feasible(..) => "feasible",
            Call::Successors(..) => "successors",
            Call::Link(..) => "link",
            Call::Awaits(..) => "awaits",
            Call::Trace(_) => match answer {
                ARRIVED..STRANDED => "trace arrived",
                STRANDED..CIRCLING => "trace stranded",
                CIRCLING.. => "trace circling",
                _ => "trace",
            },
        }
    }

    /// The product's answer.
    pub fn of_product(&self, tables: &mut Tables, path: &mut [u8]) -> u32 {
        match *self {
            Call::Up(a, b, of_a, of_b) => product::up(tables, a, b, of_a, of_b),
            Call::Cost(a, b, cost) => product::cost(tables, a, b, cost),
            Call::Down(a, b) => product::down(tables, a, b),
            Call::Deliver(a, b) => product::deliver(tables, a, b),
            Call::State(i) => product::state(tables, i),
            Call::Distance(i, j) => product::distance(tables, i, j),
            Call::Feasible(i, j) => product::feasible(tables, i, j),
            Call::Successors(i, j) => product::successors(tables, i, j),
            Call::Link(i, j) => product::link(tables, i, j),
            Call::Awaits(i, j) => product::awaits(tables, i, j),
            Call::Trace(ref it) => {
                let path = &mut path[..it.places];
                product::trace(tables, it.start, it.destination, &it.choices, path)
            }
        }
    }

    /// The second program's answer for a network that it keeps itself.
    pub fn of_second(&self, network: &mut Network, path: &mut [u8]) -> u32 {
        match *self {
            Call::Up(a, b, of_a, of_b) => border::done(network.up(a, b, of_a, of_b)),
            Call::Cost(a, b, cost) => border::done(network.cost(a, b, cost)),
            Call::Down(a, b) => border::done(network.down(a, b)),
            Call::Deliver(a, b) => border::done(network.deliver(a, b)),
            Call::State(i) => border::state(network, i),
            Call::Distance(i, j) => border::distance(network, i, j),
            Call::Feasible(i, j) => border::feasible(network, i, j),
            Call::Successors(i, j) => border::successors(network, i, j),
            Call::Link(i, j) => border::link(network, i, j),
            Call::Awaits(i, j) => border::awaits(network, i, j),
            Call::Trace(ref it) => {
                let path = &mut path[..it.places];
                border::trace(network, it.start, it.destination, &it.choices, path)
            }
        }
    }

    /// The second program's answer for tables: they are read, found fit or not,
    /// and laid out again after an accepted event.
    pub fn of_second_on_tables(&self, tables: &mut Tables, path: &mut [u8]) -> u32 {
        let mut network = match tables.read() {
            Err(refusal) => return refusal,
            Ok(network) => network,
        };
        let answer = self.of_second(&mut network, path);
        if self.is_event() && answer >= ACCEPTED {
            *tables = Tables::of(&network);
        }
        answer
    }
}

impl fmt::Display for Call {
    fn fmt(&self, f: &mut fmt::Formatter<'_>) -> fmt::Result {
        match self {
            Call::Up(a, b, of_a, of_b) => {
                write!(f, "puntclover_network_up({a}, {b}, {of_a}, {of_b})")
            }
            Call::Cost(a, b, cost) => write!(f, "puntclover_network_cost({a}, {b}, {cost})"),
            Call::Down(a, b) => write!(f, "puntclover_network_down({a}, {b})"),
            Call::Deliver(a, b) => write!(f, "puntclover_network_deliver({a}, {b})"),
            Call::State(i) => write!(f, "puntclover_network_state({i})"),
            Call::Distance(i, j) => write!(f, "puntclover_network_distance({i}, {j})"),
            Call::Feasible(i, j) => write!(f, "puntclover_network_feasible({i}, {j})"),
            Call::Successors(i, j) => write!(f, "puntclover_network_successors({i}, {j})"),
            Call::Link(i, j) => write!(f, "puntclover_network_link({i}, {j})"),
            Call::Awaits(i, j) => write!(f, "puntclover_network_awaits({i}, {j})"),
            Call::Trace(it) => {
                let Trace {
                    start,
                    destination,
                    choices,
                    places,
                } = it;
                write!(
                    f,
                    "puntclover_network_trace({start}, {destination}, choices {choices:?}, {places} places)"
                )
            }
        }
    }
}
