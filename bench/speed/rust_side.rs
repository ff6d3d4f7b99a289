//! The Rust decoder over a whole stream.

use crate::seen::Seen;
use crate::tables::Table;
use bytes::BytesMut;
use ebml_iterable::errors::tag_iterator::TagIteratorError;
use ebml_iterable::specs::{EbmlSpecification, EbmlTag, Master, PathPart, TagDataType};
use ebml_iterable::tag_decoder::{PositionedTag, TagDecoder};
use ebml_iterable::tag_writer::TagWriter;
use std::marker::PhantomData;

/// What the Rust hands out, as its own macro would declare it: a value, text and bytes as owned copies.
#[derive(Clone)]
pub enum Value {
    Start,
    End,
    Unsigned(u64),
    Integer(i64),
    Float(f64),
    Text(String),
    Binary(Vec<u8>),
    Raw(Vec<u8>),
}

#[derive(Clone)]
pub struct Tag<T> {
    pub id: u64,
    pub value: Value,
    table: PhantomData<T>,
}

pub fn tag<T>(id: u64, value: Value) -> Tag<T> {
    Tag {
        id,
        value,
        table: PhantomData,
    }
}

impl<T: Table> EbmlSpecification<Tag<T>> for Tag<T> {
    fn get_tag_data_type(id: u64) -> Option<TagDataType> {
        T::find(id).map(|(kind, _)| kind)
    }

    fn get_path_by_id(id: u64) -> &'static [PathPart] {
        T::find(id).map_or(&[], |(_, path)| path)
    }

    fn get_unsigned_int_tag(id: u64, data: u64) -> Option<Self> {
        Some(tag(id, Value::Unsigned(data)))
    }

    fn get_signed_int_tag(id: u64, data: i64) -> Option<Self> {
        Some(tag(id, Value::Integer(data)))
    }

    fn get_utf8_tag(id: u64, data: String) -> Option<Self> {
        Some(tag(id, Value::Text(data)))
    }

    fn get_binary_tag(id: u64, data: &[u8]) -> Option<Self> {
        Some(tag(id, Value::Binary(data.to_vec())))
    }

    fn get_float_tag(id: u64, data: f64) -> Option<Self> {
        Some(tag(id, Value::Float(data)))
    }

    fn get_master_tag(id: u64, data: Master<Self>) -> Option<Self> {
        Some(tag(id, if matches!(data, Master::Start) { Value::Start } else { Value::End }))
    }

    fn get_raw_tag(id: u64, data: &[u8]) -> Self {
        tag(id, Value::Raw(data.to_vec()))
    }
}

impl<T: Table> EbmlTag<Tag<T>> for Tag<T> {
    fn get_id(&self) -> u64 {
        self.id
    }

    fn as_unsigned_int(&self) -> Option<&u64> {
        let Value::Unsigned(n) = &self.value else { return None };
        Some(n)
    }

    fn as_signed_int(&self) -> Option<&i64> {
        let Value::Integer(v) = &self.value else { return None };
        Some(v)
    }

    fn as_utf8(&self) -> Option<&str> {
        let Value::Text(text) = &self.value else { return None };
        Some(text)
    }

    fn as_binary(&self) -> Option<&[u8]> {
        let (Value::Binary(data) | Value::Raw(data)) = &self.value else { return None };
        Some(data)
    }

    fn as_float(&self) -> Option<&f64> {
        let Value::Float(x) = &self.value else { return None };
        Some(x)
    }

    fn as_master(&self) -> Option<&Master<Self>> {
        match self.value {
            Value::Start => Some(&Master::Start),
            Value::End => Some(&Master::End),
            _ => None,
        }
    }
}

type Answer<T> = Result<Option<PositionedTag<Tag<T>>>, TagIteratorError>;

/// From fresh to the end of input. `buffer` holds the whole stream, or nothing where the stream comes in chunks.
pub fn decode<T: Table>(stream: &[u8], chunk: usize, mut buffer: BytesMut) -> Seen {
    let mut decoder = TagDecoder::<Tag<T>>::new(&[]);
    let mut seen = Seen::default();
    let mut fed = if chunk == 0 { stream.len() } else { 0 };
    loop {
        let before = buffer.len();
        match decoder.decode(&mut buffer) {
            Ok(Some(event)) => see(&mut seen, &event, before - buffer.len()),
            Ok(None) if fed < stream.len() => {
                let next = stream.len().min(fed + chunk);
                buffer.extend_from_slice(&stream[fed..next]);
                fed = next;
            }
            _ => break,
        }
    }
    seen.last = loop {
        match end(&mut decoder, &mut buffer) {
            Ok(Some(event)) => see(&mut seen, &event, 0),
            Ok(None) => break 2,
            Err(_) => break 3,
        }
    };
    seen.position = decoder.position() as u64;
    seen
}

/// The document of the Rust's own writer.
pub fn write<T: Table>(tags: &[Tag<T>]) -> Vec<u8> {
    let mut writer = TagWriter::new(Vec::new());
    for tag in tags {
        writer.write(tag).expect("a list that is written");
    }
    writer.into_inner().expect("a list that is written")
}

/// The bytes that a recovery from fresh passes over.
pub fn recover<T: Table>(mut buffer: BytesMut) -> usize {
    let before = buffer.len();
    let mut decoder = TagDecoder::<Tag<T>>::new(&[]);
    decoder.try_recover(&mut buffer);
    before - buffer.len()
}

fn end<T: Table>(decoder: &mut TagDecoder<Tag<T>>, buffer: &mut BytesMut) -> Answer<T> {
    decoder.decode_eof(buffer)
}

#[inline]
fn see<T>(seen: &mut Seen, event: &PositionedTag<Tag<T>>, taken: usize) {
    let (id, offset) = (event.tag.id, event.offset as u64);
    let end = offset + taken as u64;
    match &event.tag.value {
        Value::Start => seen.element(1, id, offset),
        Value::End => seen.element(2, id, offset),
        Value::Unsigned(n) => seen.number(3, id, offset, *n),
        Value::Integer(v) => seen.number(4, id, offset, *v as u64),
        Value::Float(x) => seen.number(5, id, offset, x.to_bits()),
        Value::Text(text) => seen.range(6, id, offset, end - text.len() as u64, end),
        Value::Binary(data) => seen.range(7, id, offset, end - data.len() as u64, end),
        Value::Raw(data) => seen.range(8, id, offset, end - data.len() as u64, end),
    }
}
