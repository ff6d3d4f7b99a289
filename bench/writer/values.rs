//! Values that tell: numbers at the limits of every width, floats of every class, texts and binaries around the limits
//! of the sizes.

use crate::prng::Prng;
use crate::table::{FLOAT, INTEGER, TEXT, UNSIGNED};

/// Sizes of elements at whose neighbours the size takes a byte more, where a line of a script can hold them.
pub const SMALL_LIMITS: [usize; 1] = [126];
/// The same, where it cannot.
pub const LARGE_LIMITS: [usize; 8] = [126, 126, 126, 16_382, 16_382, 16_382, 16_382, 2_097_150];
const CHARACTERS: [&str; 12] =
    ["\0", "a", "\u{7F}", "\u{80}", "é", "\u{7FF}", "\u{800}", "\u{D7FF}", "\u{E000}", "\u{FFFF}", "\u{10000}", "\u{10FFFF}"];
const BAD_TEXTS: [&[u8]; 8] =
    [&[0x80], &[0xC0, 0x80], &[0xC3], &[0xED, 0xA0, 0x80], &[0xE0, 0x9F, 0xBF], &[0xF4, 0x90, 0x80, 0x80], &[0xF0, 0x8F, 0xBF, 0xBF], &[0xFF]];

/// The bytes of a value of this type, as a list has them; text and binary of about `most` bytes at most.
pub fn value(prng: &mut Prng, kind: u64, most: usize, limits: &[usize]) -> Vec<u8> {
    match kind {
        UNSIGNED => unsigned(prng).to_be_bytes().to_vec(),
        INTEGER => integer(prng).to_be_bytes().to_vec(),
        FLOAT => float(prng).to_be_bytes().to_vec(),
        TEXT => {
            let length = length(prng, most, limits);
            text(prng, length)
        }
        _ => {
            let length = length(prng, most, limits);
            prng.bytes(length)
        }
    }
}

/// A power of 256 or half of one, its neighbours, or a number of any magnitude.
fn unsigned(prng: &mut Prng) -> u64 {
    let limit = 1u64.checked_shl(prng.pick(&[0, 7, 8, 15, 16, 23, 24, 31, 32, 39, 40, 47, 48, 55, 56, 63, 64])).unwrap_or(0);
    match prng.below(8) {
        0 => 0,
        1 => prng.of_any_magnitude(),
        2 | 3 => limit,
        4 | 5 => limit.wrapping_sub(1),
        _ => limit.wrapping_add(1),
    }
}

fn integer(prng: &mut Prng) -> i64 {
    let n = unsigned(prng) as i64;
    if prng.below(2) == 0 { n } else { n.wrapping_neg() }
}

/// Zeros, infinities, quiet and signalling NaNs, subnormals, and any bits.
fn float(prng: &mut Prng) -> u64 {
    let sign = prng.below(2) << 63;
    let any = prng.next();
    let fraction = any >> 12;
    sign | match prng.below(8) {
        0 => 0,
        1 => 0x7FF0 << 48,
        2 => 0x7FF8 << 48 | fraction,
        3 => 0x7FF0 << 48 | fraction.max(1) & !(1 << 51) | 1,
        4 => fraction,
        5 => 1,
        6 => 1.5f64.to_bits(),
        _ => any >> 1,
    }
}

/// Often short, often around a limit of the sizes.
fn length(prng: &mut Prng, most: usize, limits: &[usize]) -> usize {
    let length = match prng.below(8) {
        0 => 0,
        1..=4 => prng.index(12),
        5 => prng.index(most + 1),
        _ => (prng.pick(limits) + 6).saturating_sub(prng.index(20)),
    };
    length.min(most)
}

/// A text of so many bytes.
fn text(prng: &mut Prng, length: usize) -> Vec<u8> {
    let mut text = Vec::with_capacity(length);
    while text.len() < length {
        let next = if prng.below(3) == 0 { prng.pick(&CHARACTERS) } else { "x" };
        if text.len() + next.len() <= length {
            text.extend_from_slice(next.as_bytes());
        }
    }
    text
}

/// Bytes that are no text: a good one with a wrong piece in it.
pub fn bad_text(prng: &mut Prng) -> Vec<u8> {
    let (before, after) = (prng.index(70), prng.index(10));
    let wrong = prng.pick(&BAD_TEXTS);
    [&text(prng, before)[..], wrong, &text(prng, after)].concat()
}
