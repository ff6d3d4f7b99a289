//! The limits that document 01 sets.

pub const MOST_ENTRIES: usize = 64;
/// The parts of a path.
pub const MOST_PARTS: usize = 16;
/// The bound of a Global.
pub const GREATEST_BOUND: u64 = 65_536;
/// The masters that are open; as many Ends may wait.
pub const MOST_OPEN: usize = 32;
pub const GREATEST_POSITION: u64 = 1 << 62;
