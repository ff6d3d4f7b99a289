//! Tables, good and ill-formed ones.

use crate::limits::{GREATEST_BOUND, MOST_ENTRIES, MOST_PARTS};
use crate::prng::Prng;
use crate::script::listed;

pub const MASTER: u64 = 0;
pub const UNSIGNED: u64 = 1;
pub const INTEGER: u64 = 2;
pub const TEXT: u64 = 3;
pub const BINARY: u64 = 4;
pub const FLOAT: u64 = 5;

/// A part of a path. A Global's bounds are the table's words: 0 for none, n + 1 for n.
#[derive(Clone, Copy, PartialEq)]
pub enum Part {
    Id(u64),
    Global(u64, u64),
}

pub const ANYWHERE: Part = Part::Global(0, 0);

#[derive(Clone)]
pub struct Entry {
    pub id: u64,
    pub kind: u64,
    pub path: Vec<Part>,
}

#[derive(Clone, Default)]
pub struct Table {
    pub entries: Vec<Entry>,
}

/// The two lists of words.
pub struct Words {
    pub entries: Vec<u64>,
    pub parts: Vec<u64>,
}

impl Words {
    pub fn call(&self) -> String {
        format!("table {} {}", hex_words(&self.entries), hex_words(&self.parts))
    }
}

fn hex_words(words: &[u64]) -> String {
    listed(words.iter().map(|word| format!("{word:X}")))
}

impl Table {
    /// Lays the paths out one after another; one that stands already is now and then used again.
    pub fn words(&self, prng: &mut Prng) -> Words {
        let mut parts: Vec<Part> = Vec::new();
        let mut entries = Vec::new();
        for entry in &self.entries {
            let standing = parts
                .windows(entry.path.len().max(1))
                .position(|window| window == entry.path);
            let first = match standing {
                Some(place) if prng.below(4) > 0 => place,
                _ if entry.path.is_empty() => prng.index(parts.len() + 1),
                _ => {
                    parts.extend(&entry.path);
                    parts.len() - entry.path.len()
                }
            };
            entries.extend([entry.id, entry.kind, first as u64, entry.path.len() as u64]);
        }
        let parts = parts.into_iter().flat_map(part_words).collect();
        Words { entries, parts }
    }

    pub fn call(&self, prng: &mut Prng) -> String {
        self.words(prng).call()
    }

    pub fn first(&self, id: u64) -> Option<&Entry> {
        self.entries.iter().find(|entry| entry.id == id)
    }

    /// An ID of the table, or now and then another one.
    pub fn some_id(&self, prng: &mut Prng) -> u64 {
        if self.entries.is_empty() || prng.below(12) == 0 {
            return any_id(prng);
        }
        self.entries[prng.index(self.entries.len())].id
    }

    pub fn some_master(&self, prng: &mut Prng) -> u64 {
        let masters: Vec<u64> = self
            .entries
            .iter()
            .filter(|entry| entry.kind == MASTER)
            .map(|entry| entry.id)
            .collect();
        if masters.is_empty() {
            return any_id(prng);
        }
        prng.pick(&masters)
    }
}

fn part_words(part: Part) -> [u64; 3] {
    match part {
        Part::Id(id) => [0, id, 0],
        Part::Global(min, max) => [1, min, max],
    }
}

/// The table of document 01.
pub fn of_document() -> Table {
    let session = Part::Id(0x4E01);
    let feed = Part::Id(0xA1);
    let entry = |id, kind, path: &[Part]| Entry {
        id,
        kind,
        path: path.to_vec(),
    };
    Table {
        entries: vec![
            entry(0x4E01, MASTER, &[]),
            entry(0xA1, MASTER, &[session]),
            entry(0xA2, UNSIGNED, &[session, feed]),
            entry(0xA3, TEXT, &[session, feed]),
            entry(0xA4, BINARY, &[session, feed]),
            entry(0xA5, INTEGER, &[session, feed]),
            entry(0xA6, FLOAT, &[session, feed]),
            entry(0xEC, BINARY, &[ANYWHERE]),
        ],
    }
}

pub fn any_id(prng: &mut Prng) -> u64 {
    let length = prng.pick(&[1, 1, 1, 1, 1, 2, 2, 2, 3, 4, 4, 5, 6, 7, 8]);
    let marker = 1u64 << (7 * length);
    marker | prng.below(marker)
}

fn strange_id(prng: &mut Prng) -> u64 {
    let any = prng.next();
    prng.pick(&[
        0,
        1,
        2,
        0x40,
        0x4E,
        0x7F,
        0x80,
        0xFF,
        0x100,
        0x4000,
        0x407E,
        0x407F,
        0x7FFF,
        0x8000,
        1 << 56,
        1 << 62,
        1 << 63,
        u64::MAX,
        any,
    ])
}

/// A tree of masters with values in it, and Globals.
pub fn well_formed(prng: &mut Prng) -> Table {
    let (masters, values, globals) = match prng.below(10) {
        0 => (40, 20, 4),
        1 => (1, 1, 0),
        _ => (1 + prng.index(8), prng.index(10), prng.index(4)),
    };
    let mut table = Table::default();
    for _ in 0..masters {
        let path = place_in(prng, &table);
        push(prng, &mut table, MASTER, path);
    }
    for _ in 0..values {
        let kind = value_kind(prng);
        let path = place_in(prng, &table);
        push(prng, &mut table, kind, path);
    }
    for _ in 0..globals {
        let kind = value_kind(prng);
        let path = global_path(prng, &table);
        push(prng, &mut table, kind, path);
    }
    table
}

fn push(prng: &mut Prng, table: &mut Table, kind: u64, path: Vec<Part>) {
    let mut id = any_id(prng);
    while table.first(id).is_some() {
        id = any_id(prng);
    }
    table.entries.push(Entry { id, kind, path });
}

fn value_kind(prng: &mut Prng) -> u64 {
    prng.pick(&[UNSIGNED, INTEGER, TEXT, BINARY, FLOAT])
}

/// The path of an element in some master of the table, often the last one, or at the root.
fn place_in(prng: &mut Prng, table: &Table) -> Vec<Part> {
    let masters: Vec<&Entry> = table.entries.iter().filter(|entry| entry.kind == MASTER).collect();
    if masters.is_empty() || prng.below(8) == 0 {
        return Vec::new();
    }
    let parent = if prng.below(2) == 0 {
        masters[masters.len() - 1]
    } else {
        masters[prng.index(masters.len())]
    };
    if parent.path.len() == MOST_PARTS {
        return parent.path.clone();
    }
    [&parent.path[..], &[Part::Id(parent.id)]].concat()
}

fn global_path(prng: &mut Prng, table: &Table) -> Vec<Part> {
    let mut path = if prng.below(2) == 0 {
        Vec::new()
    } else {
        place_in(prng, table)
    };
    path.truncate(MOST_PARTS - 2);
    path.push(global(prng));
    if prng.below(3) == 0 {
        path.push(Part::Id(table.some_master(prng)));
    }
    path
}

fn global(prng: &mut Prng) -> Part {
    match prng.below(8) {
        0..=2 => ANYWHERE,
        3 => Part::Global(bound(prng), 0),
        4 => Part::Global(0, bound(prng)),
        _ => Part::Global(bound(prng), bound(prng)),
    }
}

fn bound(prng: &mut Prng) -> u64 {
    match prng.below(20) {
        0 => GREATEST_BOUND,
        _ => prng.below(6),
    }
}

/// A table of good shape with some faults.
pub fn ill_formed(prng: &mut Prng) -> Table {
    let mut table = well_formed(prng);
    for _ in 0..1 + prng.below(5) {
        damage(prng, &mut table);
    }
    table.entries.truncate(MOST_ENTRIES);
    for entry in &mut table.entries {
        entry.path.truncate(MOST_PARTS);
    }
    table
}

fn damage(prng: &mut Prng, table: &mut Table) {
    let place = prng.index(table.entries.len());
    let other = table.entries[prng.index(table.entries.len())].clone();
    let part = any_part(prng, table);
    let strange = strange_id(prng);
    let kind = prng.below(6);
    let path: Vec<Part> = (0..prng.index(MOST_PARTS + 1)).map(|_| any_part(prng, table)).collect();
    let entry = &mut table.entries[place];
    match prng.below(13) {
        0 => entry.id = other.id,
        1 => entry.path = other.path,
        2 => entry.path.push(Part::Id(other.id)),
        3 => entry.path.push(Part::Id(entry.id)),
        4 => entry.path.insert(prng.index(entry.path.len() + 1), part),
        5 => entry.path.extend([global(prng), global(prng)]),
        6 => entry.path = path,
        7 => entry.kind = kind,
        8 => entry.id = strange,
        9 => drop(entry.path.pop()),
        10 => entry.path.clear(),
        11 => entry.path.reverse(),
        _ => table.entries.insert(place, Entry { kind, ..other }),
    }
}

fn any_part(prng: &mut Prng, table: &Table) -> Part {
    match prng.below(8) {
        0 => Part::Id(any_id(prng)),
        1..=3 => global(prng),
        _ => Part::Id(table.some_id(prng)),
    }
}

/// As large as a shape can be: 64 entries, paths of 16 parts.
pub fn largest(prng: &mut Prng) -> Table {
    let mut table = Table::default();
    for depth in 0..MOST_PARTS {
        let path: Vec<Part> = table.entries.iter().map(|entry| Part::Id(entry.id)).collect();
        debug_assert_eq!(path.len(), depth);
        push(prng, &mut table, MASTER, path);
    }
    let deepest: Vec<Part> = table.entries.iter().map(|entry| Part::Id(entry.id)).collect();
    while table.entries.len() < MOST_ENTRIES {
        let kind = prng.below(6);
        let mut path = deepest.clone();
        if kind != MASTER && prng.below(3) == 0 {
            let place = prng.index(MOST_PARTS);
            path[place] = global(prng);
        }
        push(prng, &mut table, kind, path);
    }
    table
}

/// Words at a limit of the shape: some just good, most just bad.
pub fn at_a_limit_of_shape(prng: &mut Prng) -> Words {
    let mut table = if prng.below(3) == 0 {
        largest(prng)
    } else {
        ill_formed(prng)
    };
    if prng.below(4) == 0 {
        table.entries.extend(table.entries.clone());
        table.entries.truncate(MOST_ENTRIES + prng.index(3));
    }
    let mut words = table.words(prng);
    for _ in 0..1 + prng.below(2) {
        bend(prng, &mut words);
    }
    words
}

fn bend(prng: &mut Prng, words: &mut Words) {
    let entry = 4 * prng.index(words.entries.len().div_ceil(4).max(1));
    let part = 3 * prng.index(words.parts.len().div_ceil(3).max(1));
    let parts = (words.parts.len() / 3) as u64;
    match prng.below(12) {
        0 => words
            .entries
            .truncate(words.entries.len().saturating_sub(1 + prng.index(4))),
        1 => words
            .parts
            .truncate(words.parts.len().saturating_sub(1 + prng.index(3))),
        2 => words.parts.extend([0, any_id(prng), 0].iter().take(prng.index(4))),
        3 => replace(
            &mut words.entries,
            entry + 1,
            prng.pick(&[5, 6, 7, 256, 1 << 32, u64::MAX]),
        ),
        4 => replace(
            &mut words.entries,
            entry + 2,
            prng.pick(&[parts, parts + 1, 1 << 32, u64::MAX, u64::MAX - 15]),
        ),
        5 => replace(
            &mut words.entries,
            entry + 3,
            prng.pick(&[0, 1, 15, 16, 17, 1 << 32, u64::MAX]),
        ),
        6 => replace(&mut words.parts, part, prng.pick(&[0, 1, 2, 1 << 32, u64::MAX])),
        7 => replace(
            &mut words.parts,
            part + 1,
            prng.pick(&[65_535, 65_536, 65_537, 1 << 32, u64::MAX]),
        ),
        8 => replace(
            &mut words.parts,
            part + 2,
            prng.pick(&[0, 1, 65_535, 65_536, 65_537, u64::MAX]),
        ),
        9 => {
            replace(
                &mut words.entries,
                entry + 2,
                prng.pick(&[0, parts, parts.saturating_sub(16), parts + 1]),
            );
            replace(&mut words.entries, entry + 3, prng.pick(&[0, 1, 16, 17]));
        }
        10 => {
            replace(&mut words.entries, entry + 2, 0u64.wrapping_sub(prng.below(4)));
            replace(&mut words.entries, entry + 3, prng.below(8));
        }
        _ => {
            let filler =
                [0x81, 4, 0, 0].repeat((MOST_ENTRIES + prng.index(2)) - (words.entries.len() / 4).min(MOST_ENTRIES));
            words.entries.extend(filler);
        }
    }
}

fn replace(words: &mut [u64], place: usize, word: u64) {
    if let Some(old) = words.get_mut(place) {
        *old = word;
    }
}
