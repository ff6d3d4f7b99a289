//! Our functions as a C program calls them: a slice is a pointer and then a length.

use crate::seen::Seen;
use crate::tables::Words;

extern "C" {
    fn bench_decode(
        entries: *const u64,
        entries_len: usize,
        parts: *const u64,
        parts_len: usize,
        stream: *const u8,
        stream_len: usize,
        chunk: usize,
        out: *mut [u64; 3],
    ) -> u64;
    fn bench_recover(
        entries: *const u64,
        entries_len: usize,
        parts: *const u64,
        parts_len: usize,
        input: *const u8,
        input_len: usize,
    ) -> u64;
    fn bench_read_headers(
        entries: *const u64,
        entries_len: usize,
        parts: *const u64,
        parts_len: usize,
        input: *const u8,
        input_len: usize,
    ) -> u64;
    fn bench_is_utf8(text: *const u8, len: usize) -> u64;
    fn bench_restore(block: *const u8, len: usize) -> u64;
    fn bench_restore_and_store(block: *const u8, len: usize, out: *mut u8, out_len: usize) -> u64;
    fn ebml_write(
        entries: *const u64,
        entries_len: usize,
        parts: *const u64,
        parts_len: usize,
        items: *const u64,
        items_len: usize,
        values: *const u8,
        values_len: usize,
        out: *mut u8,
        out_len: usize,
        written: *mut u8,
        written_len: usize,
    ) -> u64;
    fn ebml_read_vint(buffer: *const u8, len: usize, out: *mut u8, out_len: usize) -> u64;
    fn ebml_read_signed_vint(buffer: *const u8, len: usize, out: *mut u8, out_len: usize) -> u64;
    fn ebml_as_vint(val: u64, out: *mut u8, out_len: usize) -> u64;
    fn ebml_as_signed_vint(val: i64, out: *mut u8, out_len: usize) -> u64;
    fn ebml_is_vint(val: u64) -> u64;
    fn ebml_arr_to_u64(arr: *const u8, len: usize, out: *mut u8, out_len: usize) -> u64;
    fn ebml_arr_to_i64(arr: *const u8, len: usize, out: *mut u8, out_len: usize) -> u64;
    fn ebml_arr_to_f64(arr: *const u8, len: usize, out: *mut u8, out_len: usize) -> u64;
}

pub fn decode(table: &Words, stream: &[u8], chunk: usize) -> Seen {
    let mut out = [0; 3];
    let (entries, parts) = (&table.entries, &table.parts);
    let events = unsafe {
        bench_decode(
            entries.as_ptr(),
            entries.len(),
            parts.as_ptr(),
            parts.len(),
            stream.as_ptr(),
            stream.len(),
            chunk,
            &mut out,
        )
    };
    let [sum, last, position] = out;
    Seen {
        events,
        sum,
        last,
        position,
    }
}

type OverBytes = unsafe extern "C" fn(*const u64, usize, *const u64, usize, *const u8, usize) -> u64;

fn over(call: OverBytes, table: &Words, input: &[u8]) -> usize {
    let (entries, parts) = (&table.entries, &table.parts);
    let (of_entries, of_parts) = (entries.as_ptr(), parts.as_ptr());
    (unsafe { call(of_entries, entries.len(), of_parts, parts.len(), input.as_ptr(), input.len()) }) as usize
}

/// The bytes that a recovery from fresh passes over.
pub fn recover(table: &Words, input: &[u8]) -> usize {
    over(bench_recover, table, input)
}

/// At how many of the bytes a header reads.
pub fn read_headers(table: &Words, input: &[u8]) -> usize {
    over(bench_read_headers, table, input)
}

/// The refusal's number, or 0.
pub fn restore(block: &[u8]) -> u64 {
    unsafe { bench_restore(block.as_ptr(), block.len()) }
}

/// The number of the storing's refusal, or 0.
pub fn restore_and_store(block: &[u8], out: &mut [u8]) -> u64 {
    unsafe { bench_restore_and_store(block.as_ptr(), block.len(), out.as_mut_ptr(), out.len()) }
}

/// The length of the document, if it is written.
pub fn write(table: &Words, items: &[u64], values: &[u8], out: &mut [u8]) -> Option<u64> {
    let mut written = [0; 8];
    let result = unsafe {
        ebml_write(
            table.entries.as_ptr(),
            table.entries.len(),
            table.parts.as_ptr(),
            table.parts.len(),
            items.as_ptr(),
            items.len(),
            values.as_ptr(),
            values.len(),
            out.as_mut_ptr(),
            out.len(),
            written.as_mut_ptr(),
            written.len(),
        )
    };
    (result == 8).then_some(u64::from_be_bytes(written))
}

pub fn is_utf8(text: &[u8]) -> bool {
    unsafe { bench_is_utf8(text.as_ptr(), text.len()) == 1 }
}

/// A call that puts its value into the 8 lent bytes: the result, and the value.
type Call = unsafe extern "C" fn(*const u8, usize, *mut u8, usize) -> u64;

#[inline]
fn value_of(call: Call, bytes: &[u8]) -> (u64, u64) {
    let mut out = [0; 8];
    let result = unsafe { call(bytes.as_ptr(), bytes.len(), out.as_mut_ptr(), out.len()) };
    (result, u64::from_be_bytes(out))
}

pub fn read_vint(bytes: &[u8]) -> (u64, u64) {
    value_of(ebml_read_vint, bytes)
}

pub fn read_signed_vint(bytes: &[u8]) -> (u64, u64) {
    value_of(ebml_read_signed_vint, bytes)
}

pub fn arr_to_u64(bytes: &[u8]) -> (u64, u64) {
    value_of(ebml_arr_to_u64, bytes)
}

pub fn arr_to_i64(bytes: &[u8]) -> (u64, u64) {
    value_of(ebml_arr_to_i64, bytes)
}

pub fn arr_to_f64(bytes: &[u8]) -> (u64, u64) {
    value_of(ebml_arr_to_f64, bytes)
}

/// The length of the vint, and its bytes.
pub fn as_vint(value: u64) -> (u64, [u8; 8]) {
    let mut out = [0; 8];
    (unsafe { ebml_as_vint(value, out.as_mut_ptr(), out.len()) }, out)
}

pub fn as_signed_vint(value: i64) -> (u64, [u8; 8]) {
    let mut out = [0; 8];
    (unsafe { ebml_as_signed_vint(value, out.as_mut_ptr(), out.len()) }, out)
}

pub fn is_vint(value: u64) -> bool {
    unsafe { ebml_is_vint(value) == 1 }
}
