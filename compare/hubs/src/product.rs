//! The product's exported functions, as `include/puntclover/hub.h` declares them.
//!
//! A lent slice is a pointer and then a length. The functions read and write
//! the slices only, keep no pointer and never unwind, so the wrappers are safe
//! for all arguments.

extern "C" {
    fn puntclover_hub_fresh(count: u32, me: u32, table: *mut u8, table_len: usize) -> u32;
    fn puntclover_hub_up(
        table: *mut u8,
        table_len: usize,
        to: u32,
        cost: u32,
        out: *mut u8,
        out_len: usize,
    ) -> u32;
    fn puntclover_hub_cost(
        table: *mut u8,
        table_len: usize,
        to: u32,
        cost: u32,
        out: *mut u8,
        out_len: usize,
    ) -> u32;
    fn puntclover_hub_down(
        table: *mut u8,
        table_len: usize,
        to: u32,
        out: *mut u8,
        out_len: usize,
    ) -> u32;
    fn puntclover_hub_message(
        table: *mut u8,
        table_len: usize,
        from: u32,
        bytes: *const u8,
        bytes_len: usize,
        out: *mut u8,
        out_len: usize,
    ) -> u32;
    fn puntclover_hub_state(table: *const u8, table_len: usize) -> u32;
    fn puntclover_hub_distance(table: *const u8, table_len: usize, to: u32) -> u32;
    fn puntclover_hub_feasible(table: *const u8, table_len: usize, to: u32) -> u32;
    fn puntclover_hub_successors(table: *const u8, table_len: usize, to: u32) -> u32;
    fn puntclover_hub_link(table: *const u8, table_len: usize, to: u32) -> u32;
    fn puntclover_hub_awaits(table: *const u8, table_len: usize, to: u32) -> u32;
}

// SAFETY, of all blocks below: each pointer and length is that of a slice that
// is alive and, where it is written, not shared during the call.

/// A fresh table.
pub fn fresh(count: u32, me: u32, table: &mut [u8]) -> u32 {
    unsafe { puntclover_hub_fresh(count, me, table.as_mut_ptr(), table.len()) }
}

/// The link to a neighbour comes up.
pub fn up(table: &mut [u8], to: u32, cost: u32, out: &mut [u8]) -> u32 {
    let (places, room) = (table.len(), out.len());
    unsafe { puntclover_hub_up(table.as_mut_ptr(), places, to, cost, out.as_mut_ptr(), room) }
}

/// The cost of the link to a neighbour changes.
pub fn cost(table: &mut [u8], to: u32, cost: u32, out: &mut [u8]) -> u32 {
    let (places, room) = (table.len(), out.len());
    unsafe { puntclover_hub_cost(table.as_mut_ptr(), places, to, cost, out.as_mut_ptr(), room) }
}

/// The link to a neighbour goes down.
pub fn down(table: &mut [u8], to: u32, out: &mut [u8]) -> u32 {
    let (places, room) = (table.len(), out.len());
    unsafe { puntclover_hub_down(table.as_mut_ptr(), places, to, out.as_mut_ptr(), room) }
}

/// Bytes have come by the link to a neighbour.
pub fn message(table: &mut [u8], from: u32, bytes: &[u8], out: &mut [u8]) -> u32 {
    let (places, room) = (table.len(), out.len());
    unsafe {
        puntclover_hub_message(
            table.as_mut_ptr(),
            places,
            from,
            bytes.as_ptr(),
            bytes.len(),
            out.as_mut_ptr(),
            room,
        )
    }
}

/// Whether the unit is ACTIVE.
pub fn state(table: &[u8]) -> u32 {
    unsafe { puntclover_hub_state(table.as_ptr(), table.len()) }
}

/// The distance of a destination.
pub fn distance(table: &[u8], to: u32) -> u32 {
    unsafe { puntclover_hub_distance(table.as_ptr(), table.len(), to) }
}

/// The feasible distance of a destination.
pub fn feasible(table: &[u8], to: u32) -> u32 {
    unsafe { puntclover_hub_feasible(table.as_ptr(), table.len(), to) }
}

/// The successors for a destination.
pub fn successors(table: &[u8], to: u32) -> u32 {
    unsafe { puntclover_hub_successors(table.as_ptr(), table.len(), to) }
}

/// The cost of the link to a unit.
pub fn link(table: &[u8], to: u32) -> u32 {
    unsafe { puntclover_hub_link(table.as_ptr(), table.len(), to) }
}

/// Whether an acknowledgment of a unit is awaited.
pub fn awaits(table: &[u8], to: u32) -> u32 {
    unsafe { puntclover_hub_awaits(table.as_ptr(), table.len(), to) }
}
