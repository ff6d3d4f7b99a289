//! What both programs share.

pub mod faults;
pub mod judge;
pub mod lists;
pub mod model;
pub mod rust_side;
pub mod tables;
pub mod turns;
pub mod values;

#[path = "../gen/limits.rs"]
#[allow(dead_code)]
pub mod limits;
#[path = "../gen/prng.rs"]
#[allow(dead_code)]
pub mod prng;
#[path = "../gen/script.rs"]
#[allow(dead_code)]
pub mod script;
#[path = "../gen/table.rs"]
pub mod table;
