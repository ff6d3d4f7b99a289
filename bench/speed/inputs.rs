//! The streams, by document 01's table but for the deep ones.

const ONE_BYTE_MOST: usize = 126;

/// An element with its size in the least number of bytes.
fn element(id: &[u8], payload: &[u8]) -> Vec<u8> {
    [id, &size(payload.len()), payload].concat()
}

fn size(n: usize) -> Vec<u8> {
    if n <= ONE_BYTE_MOST {
        return vec![0x80 | n as u8];
    }
    [&[0x08], &(n as u64).to_be_bytes()[4..]].concat()
}

fn unknown(id: &[u8], payload: &[u8]) -> Vec<u8> {
    [id, &[0xFF], payload].concat()
}

fn session(payload: &[u8]) -> Vec<u8> {
    element(&[0x4E, 0x01], payload)
}

/// Amount, Unit, Shift and Rate of one feed.
fn feed_values(i: usize) -> Vec<u8> {
    let shift = (i % 200) as i8;
    [
        element(&[0xA2], &(60 + i as u16 % 200).to_be_bytes()),
        element(&[0xA3], b"ml"),
        element(&[0xA5], &shift.to_be_bytes()),
        element(&[0xA6], &(i as f32 / 8.0).to_be_bytes()),
    ]
    .concat()
}

/// A night: a session with so many feeds, six events each.
pub fn night(feeds: usize) -> Vec<u8> {
    let feeds: Vec<u8> = (0..feeds).flat_map(|i| element(&[0xA1], &feed_values(i))).collect();
    session(&feeds)
}

/// The same with every master's size unknown: a feed ends where the next begins.
pub fn unknown_night(feeds: usize) -> Vec<u8> {
    let feeds: Vec<u8> = (0..feeds).flat_map(|i| unknown(&[0xA1], &feed_values(i))).collect();
    unknown(&[0x4E, 0x01], &feeds)
}

/// So many values of one kind with equal payloads, in one feed.
pub fn payloads(id: u8, payload: &[u8], count: usize) -> Vec<u8> {
    let values: Vec<u8> = (0..count).flat_map(|_| element(&[id], payload)).collect();
    session(&element(&[0xA1], &values))
}

/// So many masters in each other, and values in the innermost.
pub fn deep(masters: usize, values: usize) -> Vec<u8> {
    let values: Vec<u8> = (0..values).flat_map(|i| element(&[0xA2], &[i as u8])).collect();
    let nested = (1..masters).fold(values, |inner, _| element(&[0xB0], &inner));
    session(&nested)
}

pub fn ascii(n: usize) -> Vec<u8> {
    (0..n).map(|i| b' ' + (i % 95) as u8).collect()
}

/// At most n bytes of a text again and again, up to a whole character.
pub fn repeated(text: &str, n: usize) -> Vec<u8> {
    text.as_bytes().repeat(n / text.len())
}
