//! The lent table as a specification of the Rust, and the calls of spec_util.rs.

use crate::fields::{list, word};
use ebml_iterable::spec_util::{is_ended_by, validate_tag_path};
use ebml_iterable::specs::{EbmlSpecification, EbmlTag, Master, PathPart, TagDataType};
use ebml_iterable::tag_iterator_util::EBMLSize;
use std::cell::RefCell;
use std::collections::HashSet;

const MOST_ENTRIES: usize = 64;
const MOST_PARTS_OF_A_PATH: u64 = 16;
const GREATEST_BOUND: u64 = 65_536;
const MOST_OPEN: usize = 32;

struct Entry {
    id: u64,
    data_type: TagDataType,
    path: &'static [PathPart],
}

thread_local! {
    /// The table lent last, if its shape is good.
    static TABLE: RefCell<Option<Vec<Entry>>> = const { RefCell::new(Some(Vec::new())) };
    /// The specification's paths live for ever, so equal ones are kept once.
    static PATHS: RefCell<HashSet<&'static [PathPart]>> = RefCell::new(HashSet::new());
}

pub fn is_lent() -> bool {
    TABLE.with_borrow(Option::is_some)
}

/// The answer line of a call on the table, or nothing if the fields are no such call.
pub fn answer(fields: &[&str]) -> Option<String> {
    match fields {
        ["table", entries, parts] => Some(lend(&list(entries, word)?, &list(parts, word)?)),
        ["check"] => Some("NOCHECK".to_string()),
        ["ended", master, id] => Some(ended(word(master)?, word(id)?)),
        ["path", id, stack] => Some(fits(word(id)?, &stacked(stack)?)),
        ["sended", master, id] => word(master).and(word(id)).map(|_| not_strict()),
        ["spath", id, stack] => word(id).and(stacked(stack)).map(|_| not_strict()),
        _ => None,
    }
}

/// Lends a table: `ok`, or `X 10` for a bad shape.
pub fn lend(entries: &[u64], parts: &[u64]) -> String {
    let table = read(entries, parts);
    let answer = if table.is_some() { "ok" } else { "X 10" };
    TABLE.set(table);
    answer.to_string()
}

fn read(entries: &[u64], parts: &[u64]) -> Option<Vec<Entry>> {
    if entries.len() % 4 != 0 || entries.len() / 4 > MOST_ENTRIES || parts.len() % 3 != 0 {
        return None;
    }
    let parts: Vec<PathPart> = parts.chunks(3).map(part).collect::<Option<_>>()?;
    entries.chunks(4).map(|words| entry(words, &parts)).collect()
}

fn part(words: &[u64]) -> Option<PathPart> {
    match *words {
        [0, id, 0] => Some(PathPart::Id(id)),
        [1, min, max] if min <= GREATEST_BOUND && max <= GREATEST_BOUND => {
            Some(PathPart::Global((min.checked_sub(1), max.checked_sub(1))))
        }
        _ => None,
    }
}

fn entry(words: &[u64], parts: &[PathPart]) -> Option<Entry> {
    let (first, count) = (words[2], words[3]);
    let end = first.checked_add(count)?;
    if count > MOST_PARTS_OF_A_PATH || end > parts.len() as u64 {
        return None;
    }
    Some(Entry {
        id: words[0],
        data_type: data_type(words[1])?,
        path: kept(&parts[first as usize..end as usize]),
    })
}

fn data_type(number: u64) -> Option<TagDataType> {
    Some(match number {
        0 => TagDataType::Master,
        1 => TagDataType::UnsignedInt,
        2 => TagDataType::Integer,
        3 => TagDataType::Utf8,
        4 => TagDataType::Binary,
        5 => TagDataType::Float,
        _ => return None,
    })
}

fn kept(path: &[PathPart]) -> &'static [PathPart] {
    PATHS.with_borrow_mut(|paths| {
        if !paths.contains(path) {
            paths.insert(Box::leak(path.into()));
        }
        paths.get(path).copied().unwrap_or_default()
    })
}

fn ended(master: u64, id: u64) -> String {
    yes_or_no(|| is_ended_by::<Tag>(master, id))
}

fn fits(id: u64, stack: &[(u64, EBMLSize)]) -> String {
    yes_or_no(|| validate_tag_path::<Tag>(id, stack.iter().map(|(id, size)| (*id, *size, 0))))
}

fn yes_or_no(call: impl Fn() -> bool) -> String {
    if !is_lent() {
        return "NOTABLE".to_string();
    }
    u8::from(call()).to_string()
}

/// The Rust has no strict reading.
fn not_strict() -> String {
    if is_lent() { "NOSTRICT" } else { "NOTABLE" }.to_string()
}

fn stacked(field: &str) -> Option<Vec<(u64, EBMLSize)>> {
    let stack = list(field, open_master)?;
    (stack.len() <= MOST_OPEN).then_some(stack)
}

fn open_master(item: &str) -> Option<(u64, EBMLSize)> {
    let (id, size) = item.split_once(':')?;
    let size = match size {
        "u" => EBMLSize::Unknown,
        "k" => EBMLSize::Known(0),
        _ => return None,
    };
    Some((word(id)?, size))
}

/// What the Rust hands out for an element of the table.
#[derive(Clone)]
pub enum Tag {
    Start(u64),
    End(u64),
    Unsigned(u64, u64),
    Signed(u64, i64),
    Float(u64, f64),
    Text(u64, Vec<u8>),
    Binary(u64, Vec<u8>),
    Raw(u64, Vec<u8>),
}

fn of_entry<T>(id: u64, field: impl Fn(&Entry) -> T) -> Option<T> {
    TABLE.with_borrow(|table| table.iter().flatten().find(|entry| entry.id == id).map(field))
}

fn if_typed(id: u64, data_type: TagDataType, tag: Tag) -> Option<Tag> {
    (Tag::get_tag_data_type(id) == Some(data_type)).then_some(tag)
}

impl EbmlSpecification<Tag> for Tag {
    fn get_tag_data_type(id: u64) -> Option<TagDataType> {
        of_entry(id, |entry| entry.data_type)
    }

    fn get_path_by_id(id: u64) -> &'static [PathPart] {
        of_entry(id, |entry| entry.path).unwrap_or_default()
    }

    fn get_unsigned_int_tag(id: u64, data: u64) -> Option<Tag> {
        if_typed(id, TagDataType::UnsignedInt, Tag::Unsigned(id, data))
    }

    fn get_signed_int_tag(id: u64, data: i64) -> Option<Tag> {
        if_typed(id, TagDataType::Integer, Tag::Signed(id, data))
    }

    fn get_utf8_tag(id: u64, data: String) -> Option<Tag> {
        if_typed(id, TagDataType::Utf8, Tag::Text(id, data.into_bytes()))
    }

    fn get_binary_tag(id: u64, data: &[u8]) -> Option<Tag> {
        if_typed(id, TagDataType::Binary, Tag::Binary(id, data.to_vec()))
    }

    fn get_float_tag(id: u64, data: f64) -> Option<Tag> {
        if_typed(id, TagDataType::Float, Tag::Float(id, data))
    }

    fn get_master_tag(id: u64, data: Master<Tag>) -> Option<Tag> {
        match data {
            Master::Start => if_typed(id, TagDataType::Master, Tag::Start(id)),
            Master::End => if_typed(id, TagDataType::Master, Tag::End(id)),
            Master::Full(_) => None,
        }
    }

    fn get_raw_tag(id: u64, data: &[u8]) -> Tag {
        Tag::Raw(id, data.to_vec())
    }
}

impl EbmlTag<Tag> for Tag {
    fn get_id(&self) -> u64 {
        match *self {
            Tag::Start(id) | Tag::End(id) | Tag::Unsigned(id, _) | Tag::Signed(id, _) | Tag::Float(id, _) => id,
            Tag::Text(id, _) | Tag::Binary(id, _) | Tag::Raw(id, _) => id,
        }
    }

    fn as_unsigned_int(&self) -> Option<&u64> {
        let Tag::Unsigned(_, value) = self else { return None };
        Some(value)
    }

    fn as_signed_int(&self) -> Option<&i64> {
        let Tag::Signed(_, value) = self else { return None };
        Some(value)
    }

    fn as_utf8(&self) -> Option<&str> {
        let Tag::Text(_, text) = self else { return None };
        std::str::from_utf8(text).ok()
    }

    fn as_binary(&self) -> Option<&[u8]> {
        let (Tag::Binary(_, data) | Tag::Raw(_, data)) = self else { return None };
        Some(data)
    }

    fn as_float(&self) -> Option<&f64> {
        let Tag::Float(_, value) = self else { return None };
        Some(value)
    }

    fn as_master(&self) -> Option<&Master<Tag>> {
        match self {
            Tag::Start(_) => Some(&Master::Start),
            Tag::End(_) => Some(&Master::End),
            _ => None,
        }
    }
}
