//! Root of the crate `ebml_iterable`. Its own lib.rs names modules that the decoder does not need and that may not be
//! at hand (tag_iterator), so this file declares the needed ones in its place. `original` holds the unchanged files.

#![allow(dead_code)]

#[path = "original/errors.rs"]
pub mod errors;
#[path = "original/spec_util.rs"]
pub mod spec_util;
#[path = "original/specs.rs"]
pub mod specs;
#[path = "original/tag_iterator_util.rs"]
pub mod tag_iterator_util;
#[path = "original/tag_parse.rs"]
pub mod tag_parse;
#[path = "original/tag_writer.rs"]
pub mod tag_writer;
#[path = "original/tools.rs"]
pub mod tools;

pub mod tag_decoder {
    include!("original/tag_decoder.rs");

    pub mod record {
        include!("record.rs");
    }
}
