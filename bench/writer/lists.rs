//! Random lists over a table that passes its check: every element where it goes.

use crate::model::{goes, Item, END, MOST_ITEMS, START};
use crate::prng::Prng;
use crate::table::{Entry, Table, BINARY, MASTER, TEXT};
use crate::values::value;

/// How much a list may hold.
#[derive(Clone, Copy)]
pub struct Room {
    /// bytes of the second lent buffer, about
    pub values: usize,
    /// sizes that values and masters often have
    pub limits: &'static [usize],
}

/// A list with its values, and the output that is lent.
#[derive(Clone, Default)]
pub struct Case {
    pub items: Vec<Item>,
    pub words_over: usize,
    pub values: Vec<u8>,
    pub out: Vec<u8>,
}

pub fn mark(kind: u64, id: u64) -> Item {
    Item { kind, id, offset: 0, length: 0 }
}

/// The IDs of the masters that are open before an item.
pub fn open_before(items: &[Item], place: usize) -> Vec<u64> {
    let mut open = Vec::new();
    for item in &items[..place] {
        match item.kind {
            START => open.push(item.id),
            END => drop(open.pop()),
            _ => (),
        }
    }
    open
}

/// How many items: often few, often as many as there may be.
pub fn count(prng: &mut Prng) -> usize {
    match prng.below(24) {
        0 => 0,
        1 => MOST_ITEMS,
        2 => MOST_ITEMS - prng.index(12),
        3 => prng.index(MOST_ITEMS + 1),
        _ => 1 + prng.index(40),
    }
}

impl Case {
    /// An item with these bytes, at the end of the buffer, after a gap now and then.
    pub fn new_value(&mut self, prng: &mut Prng, entry: &Entry, bytes: &[u8]) -> Item {
        let gap = if prng.below(8) == 0 { prng.index(4) } else { 0 };
        self.values.extend(prng.bytes(gap));
        let item = Item { kind: entry.kind, id: entry.id, offset: self.values.len() as u64, length: bytes.len() as u64 };
        self.values.extend_from_slice(bytes);
        item
    }

    /// A value, now and then one whose bytes an earlier item has too.
    pub fn some_value(&mut self, prng: &mut Prng, entry: &Entry, room: Room) -> Item {
        let same: Vec<Item> = self.items.iter().filter(|item| item.kind == entry.kind).copied().collect();
        if !same.is_empty() && (self.values.len() > room.values || prng.below(4) == 0) {
            return Item { id: entry.id, ..prng.pick(&same) };
        }
        let most = room.values.saturating_sub(self.values.len());
        let bytes = value(prng, entry.kind, most, room.limits);
        self.new_value(prng, entry, &bytes)
    }
}

/// A walk through the table's places of so many items, or fewer where nothing goes any more.
pub fn walk(prng: &mut Prng, table: &Table, count: usize, room: Room) -> Case {
    let mut case = Case::default();
    let mut open: Vec<u64> = Vec::new();
    let closing = prng.pick(&[3, 6, 12]);
    while case.items.len() + open.len() < count {
        let is_room = case.items.len() + open.len() + 2 <= count;
        let fits = |entry: &&Entry| goes(entry, &open) && (is_room || entry.kind != MASTER);
        let here: Vec<&Entry> = table.entries.iter().filter(fits).collect();
        let is_closing = prng.below(closing) == 0 || here.is_empty();
        match (is_closing, open.last()) {
            (true, Some(id)) => {
                case.items.push(mark(END, *id));
                open.pop();
            }
            (true, None) if here.is_empty() => break,
            _ => {
                let entry = some_entry(prng, &here);
                if entry.kind == MASTER {
                    open.push(entry.id);
                    case.items.push(mark(START, entry.id));
                } else {
                    let item = case.some_value(prng, entry, room);
                    case.items.push(item);
                }
            }
        }
    }
    case.items.extend(open.iter().rev().map(|id| mark(END, *id)));
    case
}

/// One of these, the first often: it leads down where there is a chain of masters.
fn some_entry<'a>(prng: &mut Prng, here: &[&'a Entry]) -> &'a Entry {
    if prng.below(3) == 0 { here[0] } else { here[prng.index(here.len())] }
}

/// Masters in each other around one text or binary, one of them of a size at a limit or next to it.
pub fn at_limit(prng: &mut Prng, table: &Table, room: Room) -> Option<Case> {
    let long = |entry: &&Entry| [TEXT, BINARY].contains(&entry.kind) && !entry.path.is_empty();
    let inner: Vec<&Entry> = table.entries.iter().filter(long).collect();
    let entry = *inner.get(prng.index(inner.len().max(1)))?;
    let open = stack_of(prng, table, entry)?;
    let width = |id: &u64| (71 - id.leading_zeros() as usize) / 8;
    let limit = prng.pick(room.limits);
    let above = prng.index(open.len() + 1);
    let headers: usize = open.iter().rev().take(above).map(|id| width(id) + 1).sum();
    let length = (limit + 4).saturating_sub(headers + width(&entry.id) + prng.index(9));
    let mut case = Case::default();
    case.items.extend(open.iter().map(|id| mark(START, *id)));
    let bytes = vec![b'x'; length];
    let item = case.new_value(prng, entry, &bytes);
    case.items.push(item);
    case.items.extend(open.iter().rev().map(|id| mark(END, *id)));
    Some(case)
}

/// The masters that an element may stand in: its path, or some master's and itself where it goes anywhere.
fn stack_of(prng: &mut Prng, table: &Table, entry: &Entry) -> Option<Vec<u64>> {
    let ids = |entry: &Entry| entry.path.iter().map(|part| if let crate::table::Part::Id(id) = part { *id } else { 0 }).collect();
    if !goes(entry, &[]) {
        return Some(ids(entry)).filter(|open: &Vec<u64>| goes(entry, open));
    }
    let masters: Vec<&Entry> = table.entries.iter().filter(|entry| entry.kind == MASTER).collect();
    let master = *masters.get(prng.index(masters.len().max(1)))?;
    let mut open: Vec<u64> = ids(master);
    open.push(master.id);
    Some(open)
}
