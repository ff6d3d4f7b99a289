//! Streams of elements, made from a table.

use crate::prng::Prng;
use crate::table::{any_id, Entry, Part, Table, BINARY, FLOAT, INTEGER, MASTER, TEXT, UNSIGNED};

const DEEPEST: usize = 7;
const MOST_CHILDREN: u64 = 4;
const TELLING_BYTES: [u8; 10] = [0x00, 0x01, 0x02, 0x40, 0x7F, 0x80, 0x81, 0xC0, 0xFE, 0xFF];

/// How often something is amiss: one time in so many.
#[derive(Clone, Copy)]
pub struct Faults {
    pub one_in: u64,
}

impl Faults {
    fn strike(self, prng: &mut Prng) -> bool {
        prng.below(self.one_in) == 0
    }
}

pub fn document(prng: &mut Prng, table: &Table, faults: Faults) -> Vec<u8> {
    let mut stream = Vec::new();
    for _ in 0..1 + prng.below(3) {
        let id = if prng.below(3) == 0 {
            table.some_id(prng)
        } else {
            root(prng, table)
        };
        stream.extend(element(prng, table, id, faults, 0));
    }
    stream
}

fn root(prng: &mut Prng, table: &Table) -> u64 {
    let roots: Vec<u64> = table
        .entries
        .iter()
        .filter(|entry| entry.path.is_empty())
        .map(|entry| entry.id)
        .collect();
    if roots.is_empty() {
        return table.some_id(prng);
    }
    prng.pick(&roots)
}

fn element(prng: &mut Prng, table: &Table, id: u64, faults: Faults, depth: usize) -> Vec<u8> {
    let kind = table.first(id).map_or(BINARY, |entry| entry.kind);
    let payload = if kind == MASTER {
        children(prng, table, id, faults, depth)
    } else {
        value(prng, kind, faults)
    };
    let is_unknown = if kind == MASTER {
        prng.below(3) == 0
    } else {
        faults.strike(prng) && prng.below(4) == 0
    };
    let size = if is_unknown {
        unknown_size(prng)
    } else {
        known_size(prng, payload.len() as u64, faults)
    };
    [id_bytes(id), size, payload].concat()
}

fn children(prng: &mut Prng, table: &Table, id: u64, faults: Faults, depth: usize) -> Vec<u8> {
    if depth == DEEPEST {
        return Vec::new();
    }
    let fitting: Vec<u64> = table
        .entries
        .iter()
        .filter(|entry| is_child(entry, id))
        .map(|entry| entry.id)
        .collect();
    let mut payload = Vec::new();
    for _ in 0..prng.below(MOST_CHILDREN + 1) {
        let child = if fitting.is_empty() || faults.strike(prng) {
            table.some_id(prng)
        } else {
            prng.pick(&fitting)
        };
        payload.extend(element(prng, table, child, faults, depth + 1));
    }
    payload
}

fn is_child(entry: &Entry, id: u64) -> bool {
    matches!(entry.path.last(), Some(Part::Global(..))) || entry.path.last() == Some(&Part::Id(id))
}

pub fn id_bytes(id: u64) -> Vec<u8> {
    let length = (u64::BITS - id.leading_zeros()).div_ceil(8).max(1) as usize;
    id.to_be_bytes()[8 - length..].to_vec()
}

pub fn size_bytes(size: u64, length: usize) -> Vec<u8> {
    let marked = size | 1 << (7 * length);
    marked.to_be_bytes()[8 - length..].to_vec()
}

fn unknown_size(prng: &mut Prng) -> Vec<u8> {
    let length = prng.pick(&[1, 1, 1, 2, 3, 4, 5, 6, 7, 8]);
    size_bytes((1 << (7 * length)) - 1, length)
}

fn known_size(prng: &mut Prng, right: u64, faults: Faults) -> Vec<u8> {
    let size = if faults.strike(prng) {
        wrong_size(prng, right)
    } else {
        right
    };
    let least = (1..8).find(|length| size < (1 << (7 * length)) - 1).unwrap_or(8);
    let length = if prng.below(8) == 0 {
        least + prng.index(9 - least)
    } else {
        least
    };
    size_bytes(size, length)
}

fn wrong_size(prng: &mut Prng, right: u64) -> u64 {
    match prng.below(8) {
        0 => prng.next() >> 8,
        1 => prng.below(300),
        2 => 4_000_000_000 + prng.below(3) - 1,
        3 => prng.below(10),
        _ => (right + prng.below(7)).saturating_sub(3),
    }
}

pub fn value(prng: &mut Prng, kind: u64, faults: Faults) -> Vec<u8> {
    let is_faulty = faults.strike(prng);
    match kind {
        UNSIGNED | INTEGER if is_faulty => random_bytes(prng, 12),
        UNSIGNED | INTEGER => random_bytes(prng, 9),
        FLOAT if is_faulty => random_bytes(prng, 12),
        FLOAT => {
            let length = prng.pick(&[0, 4, 8]);
            prng.bytes(length)
        }
        TEXT if is_faulty => random_bytes(prng, 12),
        TEXT => text(prng),
        _ => random_bytes(prng, 14),
    }
}

fn random_bytes(prng: &mut Prng, bound: usize) -> Vec<u8> {
    let length = prng.index(bound);
    prng.bytes(length)
}

fn text(prng: &mut Prng) -> Vec<u8> {
    let characters: String = (0..prng.below(7)).map(|_| character(prng)).collect();
    characters.into_bytes()
}

pub fn character(prng: &mut Prng) -> char {
    let number = match prng.below(4) {
        0 => prng.below(0x80),
        1 => prng.below(0x800),
        2 => prng.below(0x1_0000),
        _ => prng.below(0x11_0000),
    };
    char::from_u32(number as u32).unwrap_or('\u{FFFD}')
}

/// Cuts, flips, drops and adds.
pub fn damage(prng: &mut Prng, stream: &mut Vec<u8>) {
    if stream.is_empty() {
        return;
    }
    let place = prng.index(stream.len());
    match prng.below(7) {
        0 => stream.truncate(place),
        1 => stream[place] ^= 1 << prng.below(8),
        2 => stream[place] = prng.pick(&TELLING_BYTES),
        3 => drop(stream.remove(place)),
        4 => stream.insert(place, prng.pick(&TELLING_BYTES)),
        5 => {
            let junk = random_bytes(prng, 6);
            stream.splice(place..place, junk);
        }
        _ => {
            let id = id_bytes(any_id(prng));
            stream.splice(place..place, id);
        }
    }
}

/// Masters of known size one in another, so many of them.
pub fn nested(prng: &mut Prng, ids: &[u64], depth: usize) -> Vec<u8> {
    let mut stream = if prng.below(2) == 0 {
        vec![0xEC, 0x80]
    } else {
        Vec::new()
    };
    for _ in 0..depth {
        let size = stream.len() as u64 + prng.below(2);
        let length = if size < 127 { 1 } else { 2 };
        stream = [id_bytes(prng.pick(ids)), size_bytes(size, length), stream].concat();
    }
    stream
}
