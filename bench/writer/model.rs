//! The writer by document 02, CR 2, alone: what is refused, and the bytes of what is not. Written from the document and
//! not from the crates, so that the two can be compared. Sizes are summed on a stack, each once, at its End.

use crate::table::{Entry, Part, Table, BINARY, FLOAT, INTEGER, MASTER, TEXT, UNSIGNED};
use std::borrow::Cow;

pub const START: u64 = 0;
pub const END: u64 = 6;
pub const MOST_ITEMS: usize = 512;
const GREATEST_SIZE: u128 = 4_000_000_000;

/// A Start, an End or a value; of a value the place of its bytes in the second lent buffer.
#[derive(Clone, Copy)]
pub struct Item {
    pub kind: u64,
    pub id: u64,
    pub offset: u64,
    pub length: u64,
}

/// A list as it is handed over. There is no table where it fails its check; `words_over` are words after the last item.
pub struct List<'a> {
    pub table: Option<&'a Table>,
    pub items: &'a [Item],
    pub words_over: usize,
    pub values: &'a [u8],
}

/// The size of each element's data, by the place of its Start or value; of an End 0. And that of the whole document.
pub struct Sizes {
    pub of_items: Vec<u128>,
    pub whole: u128,
}

/// The document's bytes in an output of so many, or the refusal's number.
pub fn write(list: &List, room: usize) -> Result<Vec<u8>, u64> {
    let sizes = sizes(list)?;
    if sizes.whole > room as u128 {
        return Err(44);
    }
    let mut bytes = Vec::new();
    for (item, size) in list.items.iter().zip(&sizes.of_items) {
        if item.kind != END {
            bytes.extend(shortest(item.id));
            bytes.extend(vint(*size));
        }
        if let (true, Some(payload)) = (is_value(item.kind), payload(item, list.values)) {
            bytes.extend_from_slice(&payload);
        }
    }
    Ok(bytes)
}

/// The sizes, or the first of the refusals 40 to 43.
pub fn sizes(list: &List) -> Result<Sizes, u64> {
    let table = list.table.ok_or(40u64)?;
    if list.items.len() > MOST_ITEMS {
        return Err(41);
    }
    if !is_matched(list.items) {
        return Err(42);
    }
    if list.words_over > 0 {
        return Err(43);
    }
    sums(table, list.items, list.values).ok_or(43)
}

fn is_value(kind: u64) -> bool {
    (UNSIGNED..=FLOAT).contains(&kind)
}

fn is_matched(items: &[Item]) -> bool {
    let mut open = Vec::new();
    for item in items {
        match item.kind {
            START => open.push(item.id),
            END if open.pop() != Some(item.id) => return false,
            _ => (),
        }
    }
    open.is_empty()
}

/// Nothing where an item has a wrong place, kind or value, or a size is too great.
fn sums(table: &Table, items: &[Item], values: &[u8]) -> Option<Sizes> {
    let mut of_items = vec![0; items.len()];
    let mut open: Vec<(usize, u128)> = Vec::new();
    let mut whole = 0;
    for (place, item) in items.iter().enumerate() {
        let (start, size) = match item.kind {
            END => open.pop()?,
            _ => {
                let stack: Vec<u64> = open.iter().map(|(start, _)| items[*start].id).collect();
                let entry = table.first(item.id)?;
                if entry.kind != item.kind || !goes(entry, &stack) {
                    return None;
                }
                if item.kind == START {
                    open.push((place, 0));
                    continue;
                }
                (place, payload(item, values)?.len() as u128)
            }
        };
        if size > GREATEST_SIZE {
            return None;
        }
        of_items[start] = size;
        let all = shortest(item.id).len() as u128 + vint(size).len() as u128 + size;
        *open.last_mut().map_or(&mut whole, |(_, sum)| sum) += all;
    }
    Some(Sizes { of_items, whole })
}

/// "An element goes only where its path of IDs says; one whose path is a single Global without bounds goes anywhere,
/// other paths nowhere."
pub fn goes(entry: &Entry, stack: &[u64]) -> bool {
    let ids: Vec<Part> = stack.iter().map(|id| Part::Id(*id)).collect();
    entry.path == [Part::Global(0, 0)] || entry.path == ids
}

/// The bytes that a value becomes, or nothing where its range or its bytes are wrong.
pub fn payload<'a>(item: &Item, values: &'a [u8]) -> Option<Cow<'a, [u8]>> {
    let end = item.offset as u128 + item.length as u128;
    if end > values.len() as u128 {
        return None;
    }
    let raw = &values[item.offset as usize..end as usize];
    let eight = || <[u8; 8]>::try_from(raw).ok();
    match item.kind {
        UNSIGNED => Some(shortest(u64::from_be_bytes(eight()?)).into()),
        INTEGER => Some(shortest_signed(i64::from_be_bytes(eight()?)).into()),
        FLOAT => eight().map(|_| raw.into()),
        TEXT => std::str::from_utf8(raw).ok().map(|_| raw.into()),
        BINARY => Some(raw.into()),
        MASTER.. => None,
    }
}

/// A number without its leading zero bytes.
fn shortest(n: u64) -> Vec<u8> {
    n.to_be_bytes().into_iter().skip_while(|byte| *byte == 0).collect()
}

/// The fewest bytes that, with their sign, are the number in two's complement.
fn shortest_signed(v: i64) -> Vec<u8> {
    let holds = |n: &usize| v << (64 - 8 * n) >> (64 - 8 * n) == v;
    let n = if v == 0 { 0 } else { (1..=8).find(holds).expect("8 bytes hold it") };
    v.to_be_bytes()[8 - n..].to_vec()
}

/// RFC 8794: the least of 1 to 8 octets, the data bits not all ones.
fn vint(n: u128) -> Vec<u8> {
    let length = (1..=8).find(|length| n < (1 << (7 * length)) - 1).expect("below 2^56 - 1");
    let marked = (1u128 << (7 * length)) + n;
    marked.to_be_bytes()[16 - length..].to_vec()
}
