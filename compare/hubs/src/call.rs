//! A call at the border with its arguments, made on either side.

use crate::{border, product, table};
use second::limits::ACCEPTED;
use second::unit::Unit;
use std::fmt;

/// A call on a unit's table: an event, or a question.
#[derive(Clone)]
pub enum Call {
    /// The link to a unit comes up at a cost.
    Up(u32, u32),
    /// The cost of the link to a unit changes.
    Cost(u32, u32),
    /// The link to a unit goes down.
    Down(u32),
    /// Bytes have come from a unit.
    Message(u32, Vec<u8>),
    /// Whether the unit is ACTIVE.
    State,
    /// The distance of a destination.
    Distance(u32),
    /// The feasible distance of a destination.
    Feasible(u32),
    /// The successors for a destination.
    Successors(u32),
    /// The cost of the link to a unit.
    Link(u32),
    /// Whether an acknowledgment of a unit is awaited.
    Awaits(u32),
}

impl Call {
    /// Whether it may change the table.
    pub fn is_event(&self) -> bool {
        matches!(
            self,
            Call::Up(..) | Call::Cost(..) | Call::Down(..) | Call::Message(..)
        )
    }

    /// The function that is called.
    pub fn name(&self) -> &'static str {
        match self {
            Call::Up(..) => "up",
            Call::Cost(..) => "cost",
            Call::Down(..) => "down",
            Call::Message(..) => "message",
            Call::State => "state",
            Call::Distance(..) => "distance",
            Call::Feasible(..) => "feasible",
            Call::Successors(..) => "successors",
            Call::Link(..) => "link",
            Call::Awaits(..) => "awaits",
        }
    }

    /// The product's answer.
    pub fn of_product(&self, table: &mut [u8], out: &mut [u8]) -> u32 {
        match self {
            Call::Up(to, cost) => product::up(table, *to, *cost, out),
            Call::Cost(to, cost) => product::cost(table, *to, *cost, out),
            Call::Down(to) => product::down(table, *to, out),
            Call::Message(from, bytes) => product::message(table, *from, bytes, out),
            Call::State => product::state(table),
            Call::Distance(to) => product::distance(table, *to),
            Call::Feasible(to) => product::feasible(table, *to),
            Call::Successors(to) => product::successors(table, *to),
            Call::Link(to) => product::link(table, *to),
            Call::Awaits(to) => product::awaits(table, *to),
        }
    }

    /// The second program's answer for a unit that it keeps itself.
    pub fn of_second(&self, unit: &mut Unit, out: &mut [u8]) -> u32 {
        match self {
            Call::Up(to, cost) => border::event_on(unit, out, |unit| unit.up(*to, *cost)),
            Call::Cost(to, cost) => border::event_on(unit, out, |unit| unit.cost(*to, *cost)),
            Call::Down(to) => border::event_on(unit, out, |unit| unit.down(*to)),
            Call::Message(from, bytes) => {
                border::event_on(unit, out, |unit| unit.message_bytes(*from, bytes))
            }
            Call::State => border::state(unit),
            Call::Distance(to) => border::distance(unit, *to),
            Call::Feasible(to) => border::feasible(unit, *to),
            Call::Successors(to) => border::successors(unit, *to),
            Call::Link(to) => border::link(unit, *to),
            Call::Awaits(to) => border::awaits(unit, *to),
        }
    }

    /// The second program's answer for a table as bytes: it is read, found fit
    /// or not, and laid out again after an accepted event.
    pub fn of_second_on_table(&self, table: &mut [u8], out: &mut [u8]) -> u32 {
        let mut unit = match table::read(table) {
            Err(refusal) => return refusal,
            Ok(unit) => unit,
        };
        let answer = self.of_second(&mut unit, out);
        if self.is_event() && answer >= ACCEPTED {
            table.copy_from_slice(&table::laid_out(&unit));
        }
        answer
    }
}

impl fmt::Display for Call {
    fn fmt(&self, f: &mut fmt::Formatter<'_>) -> fmt::Result {
        match self {
            Call::Up(to, cost) => write!(f, "puntclover_hub_up, to {to}, cost {cost}"),
            Call::Cost(to, cost) => write!(f, "puntclover_hub_cost, to {to}, cost {cost}"),
            Call::Down(to) => write!(f, "puntclover_hub_down, to {to}"),
            Call::Message(from, bytes) => {
                write!(f, "puntclover_hub_message, from {from}, bytes {bytes:02x?}")
            }
            Call::State => write!(f, "puntclover_hub_state"),
            Call::Distance(to) => write!(f, "puntclover_hub_distance, to {to}"),
            Call::Feasible(to) => write!(f, "puntclover_hub_feasible, to {to}"),
            Call::Successors(to) => write!(f, "puntclover_hub_successors, to {to}"),
            Call::Link(to) => write!(f, "puntclover_hub_link, to {to}"),
            Call::Awaits(to) => write!(f, "puntclover_hub_awaits, to {to}"),
        }
    }
}
