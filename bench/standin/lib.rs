//! Stands in for the crate `ebml_iterable_specification`: it declares what the decoder's and the
//! writer's sources name and nothing else.

#[derive(Clone, Copy, Debug, Eq, PartialEq)]
pub enum TagDataType {
    Master,
    UnsignedInt,
    Integer,
    Utf8,
    Binary,
    Float,
}

#[derive(Clone, Copy, Debug, Eq, Hash, PartialEq)]
pub enum PathPart {
    Id(u64),
    Global((Option<u64>, Option<u64>)),
}

#[derive(Clone, Debug, Eq, PartialEq)]
pub enum Master<T> {
    Start,
    End,
    Full(Vec<T>),
}

pub trait EbmlSpecification<T>
where
    T: EbmlTag<T> + Clone,
{
    fn get_tag_data_type(id: u64) -> Option<TagDataType>;
    fn get_path_by_id(id: u64) -> &'static [PathPart];
    fn get_unsigned_int_tag(id: u64, data: u64) -> Option<T>;
    fn get_signed_int_tag(id: u64, data: i64) -> Option<T>;
    fn get_utf8_tag(id: u64, data: String) -> Option<T>;
    fn get_binary_tag(id: u64, data: &[u8]) -> Option<T>;
    fn get_float_tag(id: u64, data: f64) -> Option<T>;
    fn get_master_tag(id: u64, data: Master<T>) -> Option<T>;
    fn get_raw_tag(id: u64, data: &[u8]) -> T;
}

pub trait EbmlTag<T: Clone> {
    fn get_id(&self) -> u64;
    fn as_unsigned_int(&self) -> Option<&u64>;
    fn as_signed_int(&self) -> Option<&i64>;
    fn as_utf8(&self) -> Option<&str>;
    fn as_binary(&self) -> Option<&[u8]>;
    fn as_float(&self) -> Option<&f64>;
    fn as_master(&self) -> Option<&Master<T>>;
}
