//! Tables for the writer: those that pass their check, and some that do not.

use crate::prng::Prng;
use crate::table::{any_id, ill_formed, largest, of_document, well_formed, at_a_limit_of_shape, Entry, Part, Table, Words, ANYWHERE, MASTER};
use judging::table as judged;

const MOST_ENTRIES: usize = 64;
const MOST_PARTS: usize = 16;

/// A table as it is lent; the table itself where it passes its check.
pub struct Lent {
    pub words: Words,
    pub passed: Option<Table>,
}

/// Whether a table of good shape passes its check, by documents 01 and 02.
fn passes(table: &Table) -> bool {
    let part = |part: &Part| match *part {
        Part::Id(id) => judged::Part::Id(id),
        Part::Global(min, max) => judged::Part::Global { min: min.checked_sub(1), max: max.checked_sub(1) },
    };
    let entry = |entry: &Entry| judged::Entry {
        id: entry.id,
        is_master: entry.kind == MASTER,
        path: entry.path.iter().map(part).collect(),
    };
    judged::Table { entries: table.entries.iter().map(entry).collect() }.check() == "ok"
}

/// A table that passes.
pub fn good(prng: &mut Prng) -> Lent {
    loop {
        let table = match prng.below(10) {
            0 => of_document(),
            1 => well_formed(prng),
            2 => largest(prng),
            _ => chain(prng),
        };
        if passes(&table) {
            let words = table.words(prng);
            return Lent { words, passed: Some(table) };
        }
    }
}

/// A table that fails: by a rule, or by its shape.
pub fn bad(prng: &mut Prng) -> Lent {
    loop {
        if prng.below(2) == 0 {
            let words = at_a_limit_of_shape(prng);
            if oracle::table::lend(&words.entries, &words.parts) != "ok" {
                return Lent { words, passed: None };
            }
            continue;
        }
        let table = ill_formed(prng);
        if !passes(&table) {
            return Lent { words: table.words(prng), passed: None };
        }
    }
}

/// Masters in each other, often 16 deep or 17, with values of every type on every level; elements that go anywhere, and
/// some that go nowhere.
fn chain(prng: &mut Prng) -> Table {
    let depth = prng.pick(&[1, 2, 2, 3, 4, 8, 15, 16, 17]);
    let mut table = Table::default();
    let mut path: Vec<Part> = Vec::new();
    for _ in 0..depth {
        let id = push(prng, &mut table, MASTER, &path);
        path.push(Part::Id(id));
    }
    for _ in 0..1 + prng.index(3) {
        let kind = 1 + prng.below(5);
        push(prng, &mut table, kind, &[ANYWHERE]);
    }
    for path in nowhere(path[0]) {
        if prng.below(2) == 0 {
            push(prng, &mut table, 4, &path);
        }
    }
    let most = MOST_ENTRIES - prng.index(12);
    while table.entries.len() < most {
        let kind = prng.pick(&[0, 1, 1, 2, 2, 3, 3, 4, 4, 5, 5]);
        let level = prng.index(path.len().min(MOST_PARTS) + 1);
        push(prng, &mut table, kind, &path[..level]);
    }
    table
}

/// Paths that go nowhere, though each has a Global.
fn nowhere(root: Part) -> [Vec<Part>; 6] {
    let (least, most) = (Part::Global(1, 0), Part::Global(0, 2));
    [vec![least], vec![most], vec![Part::Global(1, 3)], vec![root, ANYWHERE], vec![ANYWHERE, ANYWHERE], vec![ANYWHERE, root]]
}

/// Adds an element with an ID of its own.
fn push(prng: &mut Prng, table: &mut Table, kind: u64, path: &[Part]) -> u64 {
    let mut id = any_id(prng);
    while table.first(id).is_some() {
        id = any_id(prng);
    }
    table.entries.push(Entry { id, kind, path: path.to_vec() });
    id
}
