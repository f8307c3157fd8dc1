//! The product's exported functions, as `include/puntclover/network.h` declares
//! them.
//!
//! A lent slice is a pointer and then a length. The functions read and write
//! the slices only, keep no pointer and never unwind, so the wrappers are safe
//! for all arguments.

use second::limits::ACCEPTED;
use second::network_tables::Tables;

/// What a trace that arrived answers before its hops are added.
pub const ARRIVED: u32 = ACCEPTED;
/// What a trace that stranded answers before its hops are added.
pub const STRANDED: u32 = 2 * ACCEPTED;
/// What a trace that goes in a circle answers before its hops are added.
pub const CIRCLING: u32 = 3 * ACCEPTED;

/// Declares functions that take the two tables to be changed, then numbers.
macro_rules! calls {
    ($($name:ident($($number:ident),*);)*) => {
        extern "C" {
            $(fn $name(
                units: *mut u8,
                units_len: usize,
                queues: *mut u8,
                queues_len: usize,
                $($number: u32),*
            ) -> u32;)*
        }
    };
}

/// Declares functions that take the two tables to be read, then numbers.
macro_rules! questions {
    ($($name:ident($($number:ident),*);)*) => {
        extern "C" {
            $(fn $name(
                units: *const u8,
                units_len: usize,
                queues: *const u8,
                queues_len: usize,
                $($number: u32),*
            ) -> u32;)*
        }
    };
}

calls! {
    puntclover_network_up(a, b, cost_of_a, cost_of_b);
    puntclover_network_cost(a, b, cost);
    puntclover_network_down(a, b);
    puntclover_network_deliver(a, b);
}

questions! {
    puntclover_network_state(i);
    puntclover_network_distance(i, j);
    puntclover_network_feasible(i, j);
    puntclover_network_successors(i, j);
    puntclover_network_link(i, j);
    puntclover_network_awaits(i, j);
}

extern "C" {
    fn puntclover_network_fresh(
        count: u32,
        units: *mut u8,
        units_len: usize,
        queues: *mut u8,
        queues_len: usize,
    ) -> u32;
    fn puntclover_network_trace(
        units: *const u8,
        units_len: usize,
        queues: *const u8,
        queues_len: usize,
        start: u32,
        destination: u32,
        choices: *const u8,
        choices_len: usize,
        path: *mut u8,
        path_len: usize,
    ) -> u32;
}

// SAFETY, of all blocks below: each pointer and length is that of a slice that
// is alive and, where it is written, not shared during the call.

/// A call's function with the tables lent for change, then its numbers.
macro_rules! changing {
    ($name:ident, $tables:expr $(, $number:expr)*) => {{
        let (units, queues) = (&mut $tables.units, &mut $tables.queues);
        let (units_len, queues_len) = (units.len(), queues.len());
        unsafe {
            $name(units.as_mut_ptr(), units_len, queues.as_mut_ptr(), queues_len $(, $number)*)
        }
    }};
}

/// A question's function with the tables lent, then its numbers.
macro_rules! asking {
    ($name:ident, $tables:expr $(, $number:expr)*) => {{
        let (units, queues) = (&$tables.units, &$tables.queues);
        unsafe {
            $name(units.as_ptr(), units.len(), queues.as_ptr(), queues.len() $(, $number)*)
        }
    }};
}

/// A fresh network.
pub fn fresh(count: u32, units: &mut [u8], queues: &mut [u8]) -> u32 {
    let (units_len, queues_len) = (units.len(), queues.len());
    unsafe {
        puntclover_network_fresh(
            count,
            units.as_mut_ptr(),
            units_len,
            queues.as_mut_ptr(),
            queues_len,
        )
    }
}

/// The link between a and b comes up.
pub fn up(tables: &mut Tables, a: u32, b: u32, cost_of_a: u32, cost_of_b: u32) -> u32 {
    changing!(puntclover_network_up, tables, a, b, cost_of_a, cost_of_b)
}

/// The cost from a to b changes.
pub fn cost(tables: &mut Tables, a: u32, b: u32, new_cost: u32) -> u32 {
    changing!(puntclover_network_cost, tables, a, b, new_cost)
}

/// The link between a and b goes down.
pub fn down(tables: &mut Tables, a: u32, b: u32) -> u32 {
    changing!(puntclover_network_down, tables, a, b)
}

/// The first message from a reaches b.
pub fn deliver(tables: &mut Tables, a: u32, b: u32) -> u32 {
    changing!(puntclover_network_deliver, tables, a, b)
}

/// Whether a unit is ACTIVE.
pub fn state(tables: &Tables, i: u32) -> u32 {
    asking!(puntclover_network_state, tables, i)
}

/// The distance of a destination at a unit.
pub fn distance(tables: &Tables, i: u32, j: u32) -> u32 {
    asking!(puntclover_network_distance, tables, i, j)
}

/// The feasible distance of a destination at a unit.
pub fn feasible(tables: &Tables, i: u32, j: u32) -> u32 {
    asking!(puntclover_network_feasible, tables, i, j)
}

/// The successors of a unit for a destination.
pub fn successors(tables: &Tables, i: u32, j: u32) -> u32 {
    asking!(puntclover_network_successors, tables, i, j)
}

/// The cost of the link from a unit to another.
pub fn link(tables: &Tables, i: u32, j: u32) -> u32 {
    asking!(puntclover_network_link, tables, i, j)
}

/// Whether a unit awaits an acknowledgment of another.
pub fn awaits(tables: &Tables, i: u32, j: u32) -> u32 {
    asking!(puntclover_network_awaits, tables, i, j)
}

/// A trace from a start to a destination.
pub fn trace(
    tables: &Tables,
    start: u32,
    destination: u32,
    choices: &[u8],
    path: &mut [u8],
) -> u32 {
    let room = path.len();
    asking!(
        puntclover_network_trace,
        tables,
        start,
        destination,
        choices.as_ptr(),
        choices.len(),
        path.as_mut_ptr(),
        room
    )
}
