//! The product's exported functions made from [`second`], with a fault if one is
//! asked for.
//!
//! It stands in for the archive where that is not to be had, and shows that the
//! comparison finds faults. The fault is that of the environment variable
//! `PUNTCLOVER_FAULT`, or of [`set_fault`] for one thread.

mod faults;

use crate::border;
use crate::call::{Call, Trace};
use faults::{Change, FAULTS};
use second::limits::ACCEPTED;
use second::network_tables::Tables;
use std::cell::Cell;
use std::{env, slice};

thread_local! {
    static FAULT: Cell<Option<Change>> =
        Cell::new(env::var("PUNTCLOVER_FAULT").ok().and_then(|name| change(&name)));
}

fn change(name: &str) -> Option<Change> {
    FAULTS.iter().find(|it| it.0 == name).map(|it| it.1)
}

/// The names of all faults.
pub fn faults() -> impl Iterator<Item = &'static str> {
    FAULTS.iter().map(|it| it.0)
}

/// Sets the fault of this thread, or none.
pub fn set_fault(name: Option<&str>) {
    FAULT.set(name.and_then(change));
}

/// The answer to a call, with the fault.
fn answer(call: Call, tables: &mut Tables, path: &mut [u8]) -> u32 {
    let fault = FAULT.get();
    let mut seen = tables.clone();
    if let Some(Change::Blind(blind)) = fault {
        blind(&mut seen);
    }
    let call = match fault {
        Some(Change::Call(other)) => other(call),
        _ => call,
    };
    let mut answer = call.of_second_on_tables(&mut seen, path);
    match fault {
        Some(Change::Answer(other)) => answer = other(&call, answer),
        Some(Change::Path(longer)) if matches!(call, Call::Trace(_)) => longer(answer, path),
        _ => {}
    }
    if call.is_event() {
        if answer >= ACCEPTED {
            if let Some(Change::Outcome(spoil)) = fault {
                spoil(&call, &mut seen);
            }
            *tables = seen;
        } else if let Some(Change::Refusal(spoil)) = fault {
            spoil(tables);
        }
    }
    answer
}

/// A lent slice.
///
/// # Safety
///
/// The pointer and the length are those of a slice that is alive.
unsafe fn lent<'a, T>(first: *const T, length: usize) -> &'a [T] {
    unsafe { slice::from_raw_parts(first, length) }
}

/// A lent slice that may be changed.
///
/// # Safety
///
/// The pointer and the length are those of a slice that is alive and not shared.
unsafe fn lent_mut<'a, T>(first: *mut T, length: usize) -> &'a mut [T] {
    unsafe { slice::from_raw_parts_mut(first, length) }
}

/// An event on lent tables.
fn event(call: Call, units: &mut [u8], queues: &mut [u8]) -> u32 {
    let mut tables = Tables {
        units: units.to_vec(),
        queues: queues.to_vec(),
    };
    let answer = answer(call, &mut tables, &mut []);
    // A fault may accept slices of another length.
    for (place, byte) in units.iter_mut().zip(&tables.units) {
        *place = *byte;
    }
    for (place, byte) in queues.iter_mut().zip(&tables.queues) {
        *place = *byte;
    }
    answer
}

/// A question about lent tables.
fn question(call: Call, units: &[u8], queues: &[u8], path: &mut [u8]) -> u32 {
    let mut tables = Tables {
        units: units.to_vec(),
        queues: queues.to_vec(),
    };
    answer(call, &mut tables, path)
}

/// Defines an exported event.
macro_rules! events {
    ($($name:ident => $call:ident($($number:ident),*);)*) => {
        $(
            /// As the product's function.
            ///
            /// # Safety
            ///
            /// Each pointer and length is that of a slice, alive and not shared.
            #[no_mangle]
            pub unsafe extern "C" fn $name(
                units: *mut u8,
                units_len: usize,
                queues: *mut u8,
                queues_len: usize,
                $($number: u32),*
            ) -> u32 {
                let (units, queues) =
                    unsafe { (lent_mut(units, units_len), lent_mut(queues, queues_len)) };
                event(Call::$call($($number),*), units, queues)
            }
        )*
    };
}

/// Defines an exported question.
macro_rules! questions {
    ($($name:ident => $call:ident($($number:ident),*);)*) => {
        $(
            /// As the product's function.
            ///
            /// # Safety
            ///
            /// Each pointer and length is that of a slice that is alive.
            #[no_mangle]
            pub unsafe extern "C" fn $name(
                units: *const u8,
                units_len: usize,
                queues: *const u8,
                queues_len: usize,
                $($number: u32),*
            ) -> u32 {
                let (units, queues) =
                    unsafe { (lent(units, units_len), lent(queues, queues_len)) };
                question(Call::$call($($number),*), units, queues, &mut [])
            }
        )*
    };
}

events! {
    puntclover_network_up => Up(a, b, cost_of_a, cost_of_b);
    puntclover_network_cost => Cost(a, b, cost);
    puntclover_network_down => Down(a, b);
    puntclover_network_deliver => Deliver(a, b);
}

questions! {
    puntclover_network_state => State(i);
    puntclover_network_distance => Distance(i, j);
    puntclover_network_feasible => Feasible(i, j);
    puntclover_network_successors => Successors(i, j);
    puntclover_network_link => Link(i, j);
    puntclover_network_awaits => Awaits(i, j);
}

/// As the product's function.
///
/// # Safety
///
/// Each pointer and length is that of a slice, alive and not shared.
#[no_mangle]
pub unsafe extern "C" fn puntclover_network_fresh(
    count: u32,
    units: *mut u8,
    units_len: usize,
    queues: *mut u8,
    queues_len: usize,
) -> u32 {
    let (units, queues) = unsafe { (lent_mut(units, units_len), lent_mut(queues, queues_len)) };
    let answer = border::fresh(count, units, queues);
    if let (Some(Change::Fresh(spoil)), ACCEPTED) = (FAULT.get(), answer) {
        spoil(units, queues);
    }
    answer
}

/// As the product's function.
///
/// # Safety
///
/// Each pointer and length is that of a slice that is alive, that of the path
/// not shared.
#[no_mangle]
pub unsafe extern "C" fn puntclover_network_trace(
    units: *const u8,
    units_len: usize,
    queues: *const u8,
    queues_len: usize,
    start: u32,
    destination: u32,
    choices: *const u8,
    choices_len: usize,
    path: *mut u8,
    path_len: usize,
) -> u32 {
    let (units, queues) = unsafe { (lent(units, units_len), lent(queues, queues_len)) };
    let (choices, path) = unsafe { (lent(choices, choices_len), lent_mut(path, path_len)) };
    let trace = Trace {
        start,
        destination,
        choices: choices.to_vec(),
        places: path.len(),
    };
    question(Call::Trace(trace), units, queues, path)
}
