//! Payloads: texts, numbers and floats.

use crate::player::Player;
use crate::prng::Prng;
use crate::stream::{character, damage, id_bytes, size_bytes, value, Faults};
use crate::strings::strings;
use crate::table::{FLOAT, INTEGER, UNSIGNED};
use oracle::fields::hex;
use std::io;
use std::path::Path;

const TEXTS: usize = 20_000;
const VALUES: usize = 20_000;

/// RFC 3629's examples (section 7), and each limit of the ranges of section 4 from both sides, cut characters among
/// them.
#[rustfmt::skip]
const NAMED_TEXTS: [&[u8]; 60] = [
    b"", b"A", b"\x00", b"\x7F",
    b"A\xE2\x89\xA2\xCE\x91.", b"\xED\x95\x9C\xEA\xB5\xAD\xEC\x96\xB4", b"\xE6\x97\xA5\xE6\x9C\xAC\xE8\xAA\x9E",
    b"\xEF\xBB\xBF\xF0\xA3\x8E\xB4",
    b"\x80", b"\xBF", b"A\x80", b"\xFE", b"\xFF", b"\xF8\x88\x80\x80\x80", b"\xFC\x84\x80\x80\x80\x80",
    b"\xC0\x80", b"\xC1\xBF", b"\xC2\x80", b"\xDF\xBF", b"\xC2\x7F", b"\xC2\xC0", b"\xC2", b"\xDF\x41",
    b"\xE0\x80\x80", b"\xE0\x9F\xBF", b"\xE0\xA0\x80", b"\xE0\xBF\xBF", b"\xE0\xA0", b"\xE0", b"\xE1\x80\x80",
    b"\xE1\x7F\x80", b"\xE1\x80\x7F", b"\xE1\x80\xC0", b"\xEC\xBF\xBF", b"\xEC\xC0\x80",
    b"\xED\x80\x80", b"\xED\x9F\xBF", b"\xED\xA0\x80", b"\xED\xBF\xBF", b"\xED\xA1\x8C\xED\xBE\xB4",
    b"\xEE\x80\x80", b"\xEF\xBF\xBF", b"\xEF\xBF",
    b"\xF0\x80\x80\x80", b"\xF0\x8F\xBF\xBF", b"\xF0\x90\x80\x80", b"\xF0\xBF\xBF\xBF", b"\xF0\x90\x80", b"\xF0\x90", b"\xF0",
    b"\xF1\x80\x80\x80", b"\xF1\x80\x7F\x80", b"\xF1\x80\x80\xC0", b"\xF3\xBF\xBF\xBF",
    b"\xF4\x80\x80\x80", b"\xF4\x8F\xBF\xBF", b"\xF4\x90\x80\x80", b"\xF4\xBF\xBF\xBF", b"\xF5\x80\x80\x80", b"\xF7\xBF\xBF\xBF",
];

pub fn generate(folder: &Path, prng: &mut Prng) -> io::Result<()> {
    named_texts(folder)?;
    texts(folder, prng)?;
    values(folder, prng)
}

fn named_texts(folder: &Path) -> io::Result<()> {
    let mut player = Player::create(folder, "decoder-named-texts")?;
    player.lend_document_table()?;
    for text in NAMED_TEXTS {
        player.call("new")?;
        one_text(&mut player, text)?;
    }
    for place in [0, 7, 8, 9, 63, 64, 65, 71] {
        player.call("new")?;
        one_text(&mut player, &plain_but_for('\u{20AC}', place, 74))?;
        player.call("new")?;
        one_text(&mut player, &plain_but_at(0x80, place, 72))?;
    }
    player.finish()
}

/// Texts: every one and two bytes, every three of the limits of RFC 3629's ranges, the limits of longer characters, and
/// characters at every place of longer texts.
fn texts(folder: &Path, prng: &mut Prng) -> io::Result<()> {
    let mut player = Player::create(folder, "decoder-text")?;
    player.lend_document_table()?;
    let edges = [0x00, 0x7F, 0x80, 0x8F, 0x90, 0x9F, 0xA0, 0xBF, 0xC0, 0xFF];
    let lead = [
        0xDF, 0xE0, 0xE1, 0xEC, 0xED, 0xEE, 0xEF, 0xF0, 0xF1, 0xF3, 0xF4, 0xF5, 0xF8, 0xFF,
    ];
    for text in strings(&(0..=0xFF).collect::<Vec<u8>>(), 0, 2) {
        one_text(&mut player, &text)?;
    }
    let limits = [
        0x00, 0x41, 0x7F, 0x80, 0x8F, 0x90, 0x9F, 0xA0, 0xBF, 0xC0, 0xC1, 0xC2, 0xDF, 0xE0, 0xE1, 0xEC, 0xED, 0xEE,
        0xEF, 0xF0, 0xF1, 0xF3, 0xF4, 0xF5, 0xFF,
    ];
    for text in strings(&limits, 3, 3) {
        one_text(&mut player, &text)?;
    }
    for first in lead {
        for tail in strings(&edges, 2, 3) {
            one_text(&mut player, &[&[first], &tail[..]].concat())?;
        }
    }
    for _ in 0..TEXTS {
        let text = longer_text(prng);
        one_text(&mut player, &text)?;
    }
    for length in [7, 8, 9, 15, 16, 17, 63, 64, 65, 71, 72, 73, 127, 128, 129, 136, 200] {
        for place in 0..length {
            one_text(&mut player, &plain_but_for(character(prng), place, length))?;
            one_text(&mut player, &plain_but_at(prng.byte() | 0x80, place, length))?;
        }
    }
    for length in [4_000, 4_096, 8_000] {
        for _ in 0..20 {
            let place = prng.index(length);
            one_text(&mut player, &plain_but_for(character(prng), place, length))?;
            one_text(&mut player, &plain_but_at(prng.byte() | 0x80, place, length))?;
        }
    }
    player.finish()
}

fn one_text(player: &mut Player, text: &[u8]) -> io::Result<()> {
    let length = if text.len() < 127 { 1 } else { 2 };
    let element = [&id_bytes(0xA3), &size_bytes(text.len() as u64, length), text].concat();
    player.call(&format!("decode {}", hex(&element))).map(drop)
}

fn longer_text(prng: &mut Prng) -> Vec<u8> {
    let mut text = String::new();
    for _ in 0..prng.below(4) {
        text.extend((0..prng.below(20)).map(|_| 'a'));
        text.extend((0..prng.below(3)).map(|_| character(prng)));
    }
    let mut text = text.into_bytes();
    if prng.below(2) == 0 {
        damage(prng, &mut text);
    }
    text.truncate(120);
    text
}

/// ASCII with one character in it, cut where the text ends.
fn plain_but_for(character: char, place: usize, length: usize) -> Vec<u8> {
    let mut text = [
        vec![b'a'; place],
        character.to_string().into_bytes(),
        vec![b'a'; length],
    ]
    .concat();
    text.truncate(length);
    text
}

fn plain_but_at(byte: u8, place: usize, length: usize) -> Vec<u8> {
    let mut text = vec![b'a'; length];
    text[place] = byte;
    text
}

fn values(folder: &Path, prng: &mut Prng) -> io::Result<()> {
    let mut player = Player::create(folder, "decoder-values")?;
    player.lend_document_table()?;
    let faults = Faults { one_in: 6 };
    for _ in 0..VALUES {
        let (id, kind) = prng.pick(&[(0xA2, UNSIGNED), (0xA5, INTEGER), (0xA6, FLOAT)]);
        let payload = value(prng, kind, faults);
        let element = [
            id_bytes(id),
            size_bytes(payload.len() as u64, 1 + prng.index(8)),
            payload,
        ]
        .concat();
        player.call(&format!("decode {}", hex(&element)))?;
    }
    player.finish()
}
