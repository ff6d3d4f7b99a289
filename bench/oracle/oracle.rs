//! Answers a script of calls from the original Rust.

mod counts;
mod decoder;
pub mod fields;
mod guard;
mod missing;
mod numbers;
pub mod table;

pub use guard::silence_panics;

pub const LONGEST_LINE: usize = 16_384;

/// The state that calls share.
#[derive(Default)]
pub struct Oracle {
    session: decoder::Session,
}

impl Oracle {
    /// The answer to one line, or nothing for an empty line or a comment.
    pub fn answer(&mut self, line: &[u8]) -> Option<String> {
        if line.len() > LONGEST_LINE {
            return Some(bad_line());
        }
        if line.is_empty() || line[0] == b'#' {
            return None;
        }
        Some(self.call(line).unwrap_or_else(bad_line))
    }

    fn call(&mut self, line: &[u8]) -> Option<String> {
        let fields: Vec<&str> = std::str::from_utf8(line).ok()?.split(' ').collect();
        numbers::answer(&fields)
            .or_else(|| table::answer(&fields))
            .or_else(|| self.session.answer(&fields))
    }
}

fn bad_line() -> String {
    "BADLINE".to_string()
}
