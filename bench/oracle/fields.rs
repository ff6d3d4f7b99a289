//! The fields of a call.

pub fn bytes(field: &str) -> Option<Vec<u8>> {
    if field == "-" {
        return Some(Vec::new());
    }
    if field.is_empty() || field.len() % 2 == 1 {
        return None;
    }
    field.as_bytes().chunks(2).map(byte).collect()
}

fn byte(pair: &[u8]) -> Option<u8> {
    Some(16 * digit(pair[0])? + digit(pair[1])?)
}

fn digit(character: u8) -> Option<u8> {
    match character {
        b'0'..=b'9' => Some(character - b'0'),
        b'A'..=b'F' => Some(character - b'A' + 10),
        _ => None,
    }
}

pub fn unsigned(field: &str) -> Option<u64> {
    if !is_decimal(field) {
        return None;
    }
    field.parse().ok()
}

pub fn signed(field: &str) -> Option<i64> {
    if !is_decimal(field.strip_prefix('-').unwrap_or(field)) {
        return None;
    }
    field.parse().ok()
}

fn is_decimal(field: &str) -> bool {
    (1..=20).contains(&field.len()) && field.bytes().all(|character| character.is_ascii_digit())
}

/// A number in hex, without leading zeros.
pub fn word(field: &str) -> Option<u64> {
    let is_word = (1..=16).contains(&field.len()) && field.bytes().all(|character| digit(character).is_some());
    if !is_word || (field.len() > 1 && field.starts_with('0')) {
        return None;
    }
    u64::from_str_radix(field, 16).ok()
}

/// Items separated by commas, `-` for none.
pub fn list<T>(field: &str, item: impl Fn(&str) -> Option<T>) -> Option<Vec<T>> {
    if field == "-" {
        return Some(Vec::new());
    }
    field.split(',').map(item).collect()
}

pub fn hex(bytes: &[u8]) -> String {
    if bytes.is_empty() {
        return "-".to_string();
    }
    let digits = b"0123456789ABCDEF";
    bytes
        .iter()
        .flat_map(|byte| [digits[usize::from(byte >> 4)], digits[usize::from(byte & 15)]])
        .map(char::from)
        .collect()
}
