//! The product's exported functions, as `include/puntclover/message.h` declares them.
//!
//! A lent slice is a pointer and then a length. The functions read and write
//! the slices only, keep no pointer and never unwind, so the wrappers are safe
//! for all arguments.

use second::limits::ENTRIES;
use second::table_bytes::EACH;

/// The numbers in a table of fields before the changes: kind, sender and number
/// of entries.
pub const LEADING: usize = 3;

/// The bytes that the fields of a message take.
pub const FIELDS: usize = EACH * (LEADING + ENTRIES);

extern "C" {
    fn puntclover_message_write(
        count: u32,
        kind: u32,
        sender: u32,
        changes: *const u8,
        changes_len: usize,
        frame: *mut u8,
        frame_len: usize,
        offset: usize,
    ) -> u32;

    fn puntclover_message_read(
        count: u32,
        bytes: *const u8,
        bytes_len: usize,
        fields: *mut u8,
        fields_len: usize,
    ) -> u32;
}

/// Lays a message into the frame from the offset on. Answers 100 plus its
/// length, or a refusal's number.
pub fn write(
    count: u32,
    kind: u32,
    sender: u32,
    changes: &[u8],
    frame: &mut [u8],
    offset: usize,
) -> u32 {
    // SAFETY: each pointer and length is that of a slice, alive and, for the
    // frame, not shared during the call.
    unsafe {
        puntclover_message_write(
            count,
            kind,
            sender,
            changes.as_ptr(),
            changes.len(),
            frame.as_mut_ptr(),
            frame.len(),
            offset,
        )
    }
}

/// Takes one message from the bytes and lays its fields at the start of the
/// table. Answers 100 plus the number of entries, or a refusal's number.
pub fn read(count: u32, bytes: &[u8], fields: &mut [u8]) -> u32 {
    // SAFETY: each pointer and length is that of a slice, alive and, for the
    // table, not shared during the call.
    unsafe {
        puntclover_message_read(
            count,
            bytes.as_ptr(),
            bytes.len(),
            fields.as_mut_ptr(),
            fields.len(),
        )
    }
}
