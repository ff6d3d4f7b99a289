// The fields of the decoder and the steps that only its own module can reach, for the driver. It is included as a
// module of the decoder's unchanged file.

use super::{OpenTag, PositionedTag, TagDecoder};
use crate::specs::{EbmlSpecification, EbmlTag};
use crate::tag_iterator_util::EBMLSize;
use crate::tag_parse;
use bytes::BytesMut;

#[derive(Clone)]
pub struct Record<TSpec> {
    pub allowed: u8,
    pub greatest: Option<usize>,
    pub position: usize,
    pub is_settled: bool,
    pub is_finished: bool,
    pub open: Vec<Open>,
    pub waiting: Vec<PositionedTag<TSpec>>,
}

#[derive(Clone)]
pub struct Open {
    pub id: u64,
    pub size: EBMLSize,
    pub start: usize,
    pub data_start: usize,
}

/// What stands at a place of the input.
pub enum Place {
    NoHeader,
    Incomplete,
    Fails,
    Passes,
}

impl<TSpec> Record<TSpec>
where
    TSpec: EbmlSpecification<TSpec> + EbmlTag<TSpec> + Clone,
{
    pub fn of(decoder: &TagDecoder<TSpec>) -> Self {
        let open = |tag: &OpenTag<TSpec>| Open {
            id: tag.id,
            size: tag.size,
            start: tag.tag_start,
            data_start: tag.data_start,
        };
        Record {
            allowed: decoder.allowed_errors,
            greatest: decoder.max_allowed_tag_size,
            position: decoder.position,
            is_settled: decoder.has_determined_doc_path,
            is_finished: decoder.finished,
            open: decoder.tag_stack.iter().map(open).collect(),
            waiting: decoder.emission_queue.iter().cloned().collect(),
        }
    }

    pub fn into_decoder(self) -> TagDecoder<TSpec> {
        let open_tag = |open: Open| OpenTag {
            id: open.id,
            size: open.size,
            tag_start: open.start,
            data_start: open.data_start,
            capture: false,
            children: Vec::new(),
        };
        let mut decoder = TagDecoder::new(&[]);
        decoder.allowed_errors = self.allowed;
        decoder.max_allowed_tag_size = self.greatest;
        decoder.position = self.position;
        decoder.has_determined_doc_path = self.is_settled;
        decoder.finished = self.is_finished;
        decoder.tag_stack = self.open.into_iter().map(open_tag).collect();
        decoder.emission_queue = self.waiting.into();
        decoder
    }
}

/// The original's settling.
pub fn settle<TSpec>(decoder: &mut TagDecoder<TSpec>, id: u64)
where
    TSpec: EbmlSpecification<TSpec> + EbmlTag<TSpec> + Clone,
{
    decoder.determine_doc_path(id);
}

/// The original's read_header and validate_header.
pub fn look<TSpec>(decoder: &mut TagDecoder<TSpec>, input: &[u8]) -> Place
where
    TSpec: EbmlSpecification<TSpec> + EbmlTag<TSpec> + Clone,
{
    match tag_parse::read_header::<TSpec>(input, decoder.position) {
        Err(_) => Place::NoHeader,
        Ok(None) => Place::Incomplete,
        Ok(Some(header)) if decoder.validate_header(&header).is_ok() => Place::Passes,
        Ok(Some(_)) => Place::Fails,
    }
}

/// The original's way of passing over a byte.
pub fn pass_over<TSpec>(decoder: &mut TagDecoder<TSpec>, input: &mut BytesMut)
where
    TSpec: EbmlSpecification<TSpec> + EbmlTag<TSpec> + Clone,
{
    decoder.advance(input, 1);
}

pub fn read_id(input: &[u8]) -> Option<u64> {
    tag_parse::read_tag_id(input).map(|(id, _)| id)
}
