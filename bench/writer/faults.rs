//! One thing wrong with a list, for each of the refusals 41 to 44; 40 is the table's.

use crate::lists::{mark, open_before, Case};
use crate::model::{goes, Item, END, MOST_ITEMS, START};
use crate::prng::Prng;
use crate::table::{any_id, Entry, Part, Table, BINARY, FLOAT, INTEGER, MASTER, TEXT, UNSIGNED};
use crate::values::{bad_text, value};

type Fault = fn(&mut Prng, &Table, &mut Case) -> Option<()>;

/// The faults, each with the refusal that it alone brings.
pub const FAULTS: [(&str, u64, Fault); 21] = [
    ("too many items", 41, too_many),
    ("an End is missing", 42, |prng, _, case| remove(prng, case, END)),
    ("a Start is missing", 42, |prng, _, case| remove(prng, case, START)),
    ("an End has another ID", 42, end_of_another),
    ("an End too many", 42, |prng, _, case| insert_mark(prng, case, END)),
    ("a Start too many", 42, |prng, _, case| insert_mark(prng, case, START)),
    ("another type", 43, another_type),
    ("an ID that the table has not", 43, unknown_id),
    ("a wrong place", 43, |prng, table, case| wrong_place(prng, table, case, |_| true)),
    ("a path that goes nowhere", 43, |prng, table, case| wrong_place(prng, table, case, has_global)),
    ("a Start of a value", 43, start_of_value),
    ("a value of a master", 43, value_of_master),
    ("a range one byte past the buffer", 43, one_past),
    ("a huge offset", 43, |prng, _, case| bent(prng, case, |item| item.offset = u64::MAX - item.length / 2)),
    ("a huge length", 43, |prng, _, case| bent(prng, case, |item| item.length = u64::MAX - item.offset / 2)),
    ("a number not of 8 bytes", 43, other_length),
    ("bad text", 43, no_text),
    ("no kind of item", 43, no_kind),
    ("words left over", 43, |prng, _, case| { case.words_over = 1 + prng.index(3); Some(()) }),
    ("output a byte too short", 44, |_, _, case| case.out.pop().map(drop)),
    ("output too short", 44, |prng, _, case| { let n = prng.index(case.out.len().max(1)); (!case.out.is_empty()).then(|| case.out.truncate(n)) }),
];

/// The place of an item of one of these kinds.
fn place_of(prng: &mut Prng, case: &Case, kinds: &[u64]) -> Option<usize> {
    let places: Vec<usize> = (0..case.items.len()).filter(|place| kinds.contains(&case.items[*place].kind)).collect();
    places.get(prng.index(places.len().max(1))).copied()
}

fn too_many(prng: &mut Prng, table: &Table, case: &mut Case) -> Option<()> {
    let root = table.entries.iter().find(|entry| entry.kind == MASTER && entry.path.is_empty())?.id;
    let most = MOST_ITEMS + 1 + prng.index(4);
    while case.items.len() < most {
        case.items.extend([mark(START, root), mark(END, root)]);
    }
    Some(())
}

fn remove(prng: &mut Prng, case: &mut Case, kind: u64) -> Option<()> {
    let place = place_of(prng, case, &[kind])?;
    case.items.remove(place);
    Some(())
}

fn end_of_another(prng: &mut Prng, table: &Table, case: &mut Case) -> Option<()> {
    let place = place_of(prng, case, &[END])?;
    let id = if prng.below(2) == 0 { table.some_id(prng) } else { any_id(prng) };
    let item = &mut case.items[place];
    (item.id != id).then(|| item.id = id)
}

fn insert_mark(prng: &mut Prng, case: &mut Case, kind: u64) -> Option<()> {
    let id = case.items.get(prng.index(case.items.len().max(1)))?.id;
    case.items.insert(prng.index(case.items.len() + 1), mark(kind, id));
    Some(())
}

fn another_type(prng: &mut Prng, _: &Table, case: &mut Case) -> Option<()> {
    let place = place_of(prng, case, &[UNSIGNED, INTEGER, TEXT, BINARY, FLOAT])?;
    let kind = 1 + prng.below(5);
    let item = &mut case.items[place];
    (item.kind != kind).then(|| item.kind = kind)
}

fn unknown_id(prng: &mut Prng, table: &Table, case: &mut Case) -> Option<()> {
    let place = place_of(prng, case, &[UNSIGNED, INTEGER, TEXT, BINARY, FLOAT])?;
    let any = any_id(prng);
    let id = prng.pick(&[any, any, 0, 1, 0x80, 0xFF, 0x4001, u64::MAX]);
    table.first(id).is_none().then(|| case.items[place].id = id)
}

fn has_global(entry: &Entry) -> bool {
    entry.path.iter().any(|part| matches!(part, Part::Global(..)))
}

/// An element of the table, one of these, where it does not go.
fn wrong_place(prng: &mut Prng, table: &Table, case: &mut Case, these: fn(&Entry) -> bool) -> Option<()> {
    let place = prng.index(case.items.len() + 1);
    let open = open_before(&case.items, place);
    let wrong: Vec<&Entry> = table.entries.iter().filter(|entry| these(entry) && !goes(entry, &open)).collect();
    let entry = *wrong.get(prng.index(wrong.len().max(1)))?;
    let item = item_of(prng, case, entry);
    let pair = [item, mark(END, entry.id)];
    let count = if entry.kind == MASTER { 2 } else { 1 };
    case.items.splice(place..place, pair[..count].iter().copied());
    Some(())
}

/// A Start, or a short value.
fn item_of(prng: &mut Prng, case: &mut Case, entry: &Entry) -> Item {
    if entry.kind == MASTER {
        return mark(START, entry.id);
    }
    let bytes = value(prng, entry.kind, 8, &[8]);
    case.new_value(prng, entry, &bytes)
}

fn start_of_value(prng: &mut Prng, _: &Table, case: &mut Case) -> Option<()> {
    let place = place_of(prng, case, &[UNSIGNED, INTEGER, TEXT, BINARY, FLOAT])?;
    let id = case.items[place].id;
    case.items.splice(place..=place, [mark(START, id), mark(END, id)]);
    Some(())
}

fn value_of_master(prng: &mut Prng, table: &Table, case: &mut Case) -> Option<()> {
    let place = prng.index(case.items.len() + 1);
    let open = open_before(&case.items, place);
    let master = table.entries.iter().find(|entry| entry.kind == MASTER && goes(entry, &open))?;
    let kind = 1 + prng.below(5);
    let item = item_of(prng, case, &Entry { kind, ..master.clone() });
    case.items.insert(place, item);
    Some(())
}

fn one_past(prng: &mut Prng, _: &Table, case: &mut Case) -> Option<()> {
    let past = case.values.len() as u64 + 1;
    bent(prng, case, |item| item.offset = past.saturating_sub(item.length))?;
    Some(())
}

fn bent(prng: &mut Prng, case: &mut Case, bend: impl Fn(&mut Item)) -> Option<()> {
    let place = place_of(prng, case, &[UNSIGNED, INTEGER, TEXT, BINARY, FLOAT])?;
    bend(&mut case.items[place]);
    let item = case.items[place];
    (item.offset as u128 + item.length as u128 > case.values.len() as u128).then_some(())
}

fn other_length(prng: &mut Prng, _: &Table, case: &mut Case) -> Option<()> {
    let place = place_of(prng, case, &[UNSIGNED, INTEGER, FLOAT])?;
    case.values.extend([0; 16]);
    case.items[place].length = prng.pick(&[0, 1, 4, 7, 9, 16]);
    Some(())
}

fn no_text(prng: &mut Prng, _: &Table, case: &mut Case) -> Option<()> {
    let place = place_of(prng, case, &[TEXT])?;
    let bytes = bad_text(prng);
    let item = &mut case.items[place];
    (item.offset, item.length) = (case.values.len() as u64, bytes.len() as u64);
    case.values.extend(bytes);
    Some(())
}

/// A number that is no kind of item; no line of a script can say it.
fn no_kind(prng: &mut Prng, _: &Table, case: &mut Case) -> Option<()> {
    let place = place_of(prng, case, &[UNSIGNED, INTEGER, TEXT, BINARY, FLOAT])?;
    case.items[place].kind = prng.pick(&[7, 8, 64, 256, 1 << 32, u64::MAX]);
    Some(())
}
