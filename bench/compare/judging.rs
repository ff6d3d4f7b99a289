//! What the comparison and the sample share.

pub mod calls;
mod check;
pub mod joined;
pub mod listed;
mod strict;
pub mod table;
