//! What the original Rust makes of a list and of a document: its decoder's events, its writer's bytes.

use crate::model::{payload, Item, END, START};
use crate::table::{FLOAT, INTEGER, TEXT, UNSIGNED};
use bytes::BytesMut;
use ebml_iterable::tag_decoder::TagDecoder;
use ebml_iterable::tag_writer::TagWriter;
use oracle::table::Tag;

/// An item with its value, or an event: kind, ID, the value's bytes (numbers and floats as 8, big-endian).
pub type Said = (u64, u64, Vec<u8>);

/// What a list says, in order. Every range lies in the buffer.
pub fn said(items: &[Item], values: &[u8]) -> Vec<Said> {
    let bytes = |item: &Item| match item.kind {
        START | END => Vec::new(),
        _ => values[item.offset as usize..(item.offset + item.length) as usize].to_vec(),
    };
    items.iter().map(|item| (item.kind, item.id, bytes(item))).collect()
}

/// The Rust's events from a fresh decoder, settings as at first, to the finish; or where it refuses.
pub fn decoded(document: &[u8]) -> Result<Vec<Said>, String> {
    let mut decoder = TagDecoder::<Tag>::new(&[]);
    let mut buffer = BytesMut::from(document);
    let mut events = Vec::new();
    let refused = |error, place| format!("refused at {place}: {error:?}");
    while let Some(event) = decoder.decode(&mut buffer).map_err(|error| refused(error, document.len()))? {
        events.push(event_said(event.tag));
    }
    while let Some(event) = decoder.decode_eof(&mut buffer).map_err(|error| refused(error, document.len()))? {
        events.push(event_said(event.tag));
    }
    if buffer.is_empty() { Ok(events) } else { Err(format!("{} bytes left", buffer.len())) }
}

fn event_said(tag: Tag) -> Said {
    match tag {
        Tag::Start(id) => (START, id, Vec::new()),
        Tag::End(id) => (END, id, Vec::new()),
        Tag::Unsigned(id, value) => (UNSIGNED, id, value.to_be_bytes().to_vec()),
        Tag::Signed(id, value) => (INTEGER, id, value.to_be_bytes().to_vec()),
        Tag::Float(id, value) => (FLOAT, id, value.to_bits().to_be_bytes().to_vec()),
        Tag::Text(id, text) => (TEXT, id, text),
        Tag::Binary(id, data) => (crate::table::BINARY, id, data),
        Tag::Raw(id, data) => (u64::MAX, id, data),
    }
}

fn tag((kind, id, bytes): Said) -> Tag {
    let number = || u64::from_be_bytes(bytes.clone().try_into().expect("8 bytes"));
    match kind {
        START => Tag::Start(id),
        END => Tag::End(id),
        UNSIGNED => Tag::Unsigned(id, number()),
        INTEGER => Tag::Signed(id, number() as i64),
        FLOAT => Tag::Float(id, f64::from_bits(number())),
        TEXT => Tag::Text(id, bytes),
        _ => Tag::Binary(id, bytes),
    }
}

/// The bytes of the Rust's own writer.
pub fn written(list: Vec<Said>) -> Result<Vec<u8>, String> {
    let mut writer = TagWriter::new(Vec::new());
    for said in list {
        writer.write(&tag(said)).map_err(|error| format!("{error:?}"))?;
    }
    writer.into_inner().map_err(|error| format!("{error:?}"))
}

/// Whether the Rust's writer takes as few bytes for each number: it has 1, 2, 4 and 8 of them.
pub fn is_as_short(items: &[Item], values: &[u8]) -> bool {
    let length = |item: &Item| payload(item, values).map_or(1, |payload| payload.len());
    items.iter().filter(|item| [UNSIGNED, INTEGER].contains(&item.kind)).all(|item| [1, 2, 4, 8].contains(&length(item)))
}
