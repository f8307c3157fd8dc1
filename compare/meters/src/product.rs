//! The product's exported functions, as `include/puntclover/meter.h` declares
//! them.
//!
//! A lent slice is a pointer and then a length. The functions read and write
//! the slices only, keep no pointer and never unwind, so the wrappers are safe
//! for all arguments.

use second::limits::ACCEPTED;
use second::network_tables::Tables;

/// What a call answers before the place is added, if its frame is held.
pub const HELD: u32 = ACCEPTED;
/// What a call answers if its frame is delivered.
pub const DELIVERED: u32 = 2 * ACCEPTED;
/// What a call answers if its frame is dropped.
pub const DROPPED: u32 = 3 * ACCEPTED;

/// Declares functions that take the network's tables to be read, the meter's to
/// be changed, then numbers.
macro_rules! calls {
    ($($name:ident($($number:ident),*);)*) => {
        extern "C" {
            $(fn $name(
                units: *const u8,
                units_len: usize,
                queues: *const u8,
                queues_len: usize,
                meter: *mut u8,
                meter_len: usize,
                $($number: u32),*
            ) -> u32;)*
        }
    };
}

/// Declares functions that take all tables to be read, then numbers.
macro_rules! questions {
    ($($name:ident($($number:ident),*) -> $answer:ty;)*) => {
        extern "C" {
            $(fn $name(
                units: *const u8,
                units_len: usize,
                queues: *const u8,
                queues_len: usize,
                meter: *const u8,
                meter_len: usize,
                $($number: u32),*
            ) -> $answer;)*
        }
    };
}

calls! {
    puntclover_meter_enter(size, unit, destination);
    puntclover_meter_move(frame, unit);
    puntclover_meter_drop(frame);
}

questions! {
    puntclover_meter_entered() -> u64;
    puntclover_meter_delivered() -> u64;
    puntclover_meter_dropped() -> u64;
    puntclover_meter_held() -> u64;
    puntclover_meter_frames() -> u64;
    puntclover_meter_frame_size(frame) -> u32;
    puntclover_meter_frame_unit(frame) -> u32;
    puntclover_meter_frame_destination(frame) -> u32;
    puntclover_meter_frame_hops(frame) -> u32;
}

extern "C" {
    fn puntclover_meter_fresh(meter: *mut u8, meter_len: usize) -> u32;
}

// SAFETY, of all blocks below: each pointer and length is that of a slice that
// is alive and, where it is written, not shared during the call.

/// A call's function with the meter lent for change, then its numbers.
macro_rules! changing {
    ($name:ident, $tables:expr, $meter:expr $(, $number:expr)*) => {{
        let (units, queues) = (&$tables.units, &$tables.queues);
        let meter_len = $meter.len();
        unsafe {
            $name(
                units.as_ptr(), units.len(), queues.as_ptr(), queues.len(),
                $meter.as_mut_ptr(), meter_len $(, $number)*
            )
        }
    }};
}

/// A question's function with all tables lent, then its numbers.
macro_rules! asking {
    ($name:ident, $tables:expr, $meter:expr $(, $number:expr)*) => {{
        let (units, queues) = (&$tables.units, &$tables.queues);
        unsafe {
            $name(
                units.as_ptr(), units.len(), queues.as_ptr(), queues.len(),
                $meter.as_ptr(), $meter.len() $(, $number)*
            )
        }
    }};
}

/// A fresh meter.
pub fn fresh(meter: &mut [u8]) -> u32 {
    let meter_len = meter.len();
    unsafe { puntclover_meter_fresh(meter.as_mut_ptr(), meter_len) }
}

/// A frame enters.
pub fn enter(tables: &Tables, meter: &mut [u8], size: u32, unit: u32, destination: u32) -> u32 {
    changing!(
        puntclover_meter_enter,
        tables,
        meter,
        size,
        unit,
        destination
    )
}

/// A frame moves one hop.
pub fn move_on(tables: &Tables, meter: &mut [u8], frame: u32, unit: u32) -> u32 {
    changing!(puntclover_meter_move, tables, meter, frame, unit)
}

/// A frame is dropped.
pub fn drop_frame(tables: &Tables, meter: &mut [u8], frame: u32) -> u32 {
    changing!(puntclover_meter_drop, tables, meter, frame)
}

/// The bytes entered.
pub fn entered(tables: &Tables, meter: &[u8]) -> u64 {
    asking!(puntclover_meter_entered, tables, meter)
}

/// The bytes delivered.
pub fn delivered(tables: &Tables, meter: &[u8]) -> u64 {
    asking!(puntclover_meter_delivered, tables, meter)
}

/// The bytes dropped.
pub fn dropped(tables: &Tables, meter: &[u8]) -> u64 {
    asking!(puntclover_meter_dropped, tables, meter)
}

/// The bytes held.
pub fn held(tables: &Tables, meter: &[u8]) -> u64 {
    asking!(puntclover_meter_held, tables, meter)
}

/// The number of frames held.
pub fn frames(tables: &Tables, meter: &[u8]) -> u64 {
    asking!(puntclover_meter_frames, tables, meter)
}

/// The size of a frame.
pub fn frame_size(tables: &Tables, meter: &[u8], frame: u32) -> u32 {
    asking!(puntclover_meter_frame_size, tables, meter, frame)
}

/// The unit that a frame is at.
pub fn frame_unit(tables: &Tables, meter: &[u8], frame: u32) -> u32 {
    asking!(puntclover_meter_frame_unit, tables, meter, frame)
}

/// The destination of a frame.
pub fn frame_destination(tables: &Tables, meter: &[u8], frame: u32) -> u32 {
    asking!(puntclover_meter_frame_destination, tables, meter, frame)
}

/// The hops that a frame has made.
pub fn frame_hops(tables: &Tables, meter: &[u8], frame: u32) -> u32 {
    asking!(puntclover_meter_frame_hops, tables, meter, frame)
}
