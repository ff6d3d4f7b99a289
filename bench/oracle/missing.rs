//! How many bytes an element lacks, by the Rust's reading of vints alone.

use crate::numbers::missing_of_vint;
use ebml_iterable::tools;

/// While the ID is incomplete, what it lacks and a byte for the size; then what the size lacks; then the payload.
pub fn missing_of_header_and_payload(input: &[u8]) -> usize {
    let Some(id) = id_length(input) else {
        return missing_of_vint(input) + 1;
    };
    match tools::read_vint(&input[id..]) {
        Ok(Some((size, length))) => id + length + size as usize - input.len(),
        Ok(None) => missing_of_vint(&input[id..]),
        Err(_) => unreachable!("a size byte 0 is refused"),
    }
}

/// Whether the ID is whole and the size begun, and no more.
pub fn is_size_begun(input: &[u8]) -> bool {
    id_length(input).is_some_and(|id| id < input.len() && matches!(tools::read_vint(&input[id..]), Ok(None)))
}

/// The length of a whole ID; a first byte 0 is an ID of one byte.
fn id_length(input: &[u8]) -> Option<usize> {
    match tools::read_vint(input) {
        Ok(whole) => whole.map(|(_, length)| length),
        Err(_) => Some(1),
    }
}
