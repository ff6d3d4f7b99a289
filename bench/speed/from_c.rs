//! Our decoder as a program in C uses it (from_c.c).

use crate::seen::Seen;
use crate::tables::Words;

/// By `ebml_decode`.
pub const ONE: usize = 1;
/// By `ebml_decode_many`, with a list of so many events.
pub const MANY: usize = 64;

extern "C" {
    fn from_c_decode(
        entries: *const u64,
        entries_len: usize,
        parts: *const u64,
        parts_len: usize,
        stream: *const u8,
        stream_len: usize,
        chunk: usize,
        room: usize,
        seen: *mut [u64; 4],
    );
}

pub fn decode(table: &Words, stream: &[u8], chunk: usize, room: usize) -> Seen {
    let mut out = [0; 4];
    let (entries, parts) = (&table.entries, &table.parts);
    unsafe {
        from_c_decode(
            entries.as_ptr(),
            entries.len(),
            parts.as_ptr(),
            parts.len(),
            stream.as_ptr(),
            stream.len(),
            chunk,
            room,
            &mut out,
        )
    };
    let [events, sum, last, position] = out;
    Seen {
        events,
        sum,
        last,
        position,
    }
}
