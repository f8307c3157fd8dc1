//! The product's exported functions made from [`second`], with a fault if one is
//! asked for.
//!
//! It stands in for the archive where that is not to be had, and shows that the
//! comparison finds faults. The fault is that of the environment variable
//! `PUNTCLOVER_METER_FAULT`, or of [`set_fault`] for one thread. The network's
//! functions are those of its own stand-in.

mod faults;

use crate::border;
use crate::call::Call;
use faults::{Change, FAULTS};
use second::limits::ACCEPTED;
use second::meter_table::{self, laid_out, BYTES};
use second::network_tables::Tables;
use std::cell::Cell;
use std::{env, slice};

thread_local! {
    static FAULT: Cell<Option<Change>> =
        Cell::new(env::var("PUNTCLOVER_METER_FAULT").ok().and_then(|name| change(&name)));
}

fn change(name: &str) -> Option<Change> {
    FAULTS.iter().find(|it| it.0 == name).map(|it| it.1)
}

/// The names of all faults.
pub fn faults() -> impl Iterator<Item = &'static str> {
    FAULTS.iter().map(|it| it.0)
}

/// Sets the fault of this thread, or none.
pub fn set_fault(name: Option<&str>) {
    FAULT.set(name.and_then(change));
}

/// The answer to a call, with the fault.
fn answer(call: Call, tables: &Tables, table: &mut Vec<u8>) -> u64 {
    let fault = FAULT.get();
    let mut seen = table.clone();
    match fault {
        Some(Change::AnyLength) => seen.resize(BYTES, 0),
        Some(Change::Blind(blind)) => blind(&mut seen),
        _ => {}
    }
    let mut answer = ruled(call, tables, &mut seen)
        .unwrap_or_else(|| call.of_second_on_tables(tables, &mut seen));
    if let Some(Change::Answer(other)) = fault {
        answer = other(call, answer);
    }
    if call.is_change() {
        if answer >= ACCEPTED.into() {
            if let Some(Change::Outcome(spoil)) = fault {
                spoil(&call, table, &mut seen);
            }
            *table = seen;
        } else if let Some(Change::Refusal(spoil)) = fault {
            spoil(table);
        }
    }
    answer
}

/// What a fault in a rule makes of a call on fit tables, if it is about it.
fn ruled(call: Call, tables: &Tables, table: &mut Vec<u8>) -> Option<u64> {
    let Some(Change::Rule(rule)) = FAULT.get() else {
        return None;
    };
    let network = tables.read().ok()?;
    let mut meter = meter_table::read(&network, table).ok()?;
    let answer = rule(call, &network, &mut meter)?;
    *table = laid_out(&meter);
    Some(answer)
}

/// A lent slice.
///
/// # Safety
///
/// The pointer and the length are those of a slice that is alive.
unsafe fn lent<'a>(first: *const u8, length: usize) -> &'a [u8] {
    unsafe { slice::from_raw_parts(first, length) }
}

/// A lent slice that may be changed.
///
/// # Safety
///
/// The pointer and the length are those of a slice that is alive and not shared.
unsafe fn lent_mut<'a>(first: *mut u8, length: usize) -> &'a mut [u8] {
    unsafe { slice::from_raw_parts_mut(first, length) }
}

fn tables(units: &[u8], queues: &[u8]) -> Tables {
    Tables {
        units: units.to_vec(),
        queues: queues.to_vec(),
    }
}

/// Defines an exported call.
macro_rules! calls {
    ($($name:ident => $call:ident($($number:ident),*);)*) => {
        $(
            /// As the product's function.
            ///
            /// # Safety
            ///
            /// Each pointer and length is that of a slice that is alive, that of
            /// the meter not shared.
            #[no_mangle]
            pub unsafe extern "C" fn $name(
                units: *const u8,
                units_len: usize,
                queues: *const u8,
                queues_len: usize,
                meter: *mut u8,
                meter_len: usize,
                $($number: u32),*
            ) -> u32 {
                let tables = unsafe { tables(lent(units, units_len), lent(queues, queues_len)) };
                let meter = unsafe { lent_mut(meter, meter_len) };
                let mut table = meter.to_vec();
                let answer = answer(Call::$call($($number),*), &tables, &mut table);
                // A fault may accept a slice of another length.
                for (place, byte) in meter.iter_mut().zip(table) {
                    *place = byte;
                }
                answer as u32
            }
        )*
    };
}

/// Defines an exported question.
macro_rules! questions {
    ($($name:ident => $call:expr, ($($number:ident),*) -> $answer:ty;)*) => {
        $(
            /// As the product's function.
            ///
            /// # Safety
            ///
            /// Each pointer and length is that of a slice that is alive.
            #[no_mangle]
            pub unsafe extern "C" fn $name(
                units: *const u8,
                units_len: usize,
                queues: *const u8,
                queues_len: usize,
                meter: *const u8,
                meter_len: usize,
                $($number: u32),*
            ) -> $answer {
                let tables = unsafe { tables(lent(units, units_len), lent(queues, queues_len)) };
                let mut table = unsafe { lent(meter, meter_len) }.to_vec();
                answer($call, &tables, &mut table) as $answer
            }
        )*
    };
}

calls! {
    puntclover_meter_enter => Enter(size, unit, destination);
    puntclover_meter_move => Move(frame, unit);
    puntclover_meter_drop => Drop(frame);
}

questions! {
    puntclover_meter_entered => Call::Entered, () -> u64;
    puntclover_meter_delivered => Call::Delivered, () -> u64;
    puntclover_meter_dropped => Call::Dropped, () -> u64;
    puntclover_meter_held => Call::Held, () -> u64;
    puntclover_meter_frames => Call::Frames, () -> u64;
    puntclover_meter_frame_size => Call::Size(frame), (frame) -> u32;
    puntclover_meter_frame_unit => Call::Unit(frame), (frame) -> u32;
    puntclover_meter_frame_destination => Call::Destination(frame), (frame) -> u32;
    puntclover_meter_frame_hops => Call::Hops(frame), (frame) -> u32;
}

/// As the product's function.
///
/// # Safety
///
/// The pointer and the length are those of a slice, alive and not shared.
#[no_mangle]
pub unsafe extern "C" fn puntclover_meter_fresh(meter: *mut u8, meter_len: usize) -> u32 {
    let meter = unsafe { lent_mut(meter, meter_len) };
    let answer = border::fresh(meter);
    if let (Some(Change::Fresh(spoil)), ACCEPTED) = (FAULT.get(), answer) {
        spoil(meter);
    }
    answer
}
