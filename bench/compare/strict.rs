//! Who ends whom and the place by the strict reading of document 02, CR 11; the Rust has none.

use crate::table::{Part, Table};

impl Table {
    /// The answer to `sended`.
    pub fn is_ended_strictly(&self, master: u64, id: u64) -> bool {
        let (path, own) = (self.path(master), self.path(id));
        let is_ending = path.contains(&Part::Id(id)) || path == own || own.is_empty();
        self.first(id).is_some() && !own.iter().any(Part::is_global) && is_ending
    }

    /// The answer to `spath`: those at the top close that the ID ends, it ends none below, and the rest is its path. An
    /// open master is its ID and whether its size is Unknown.
    pub fn fits_strictly(&self, id: u64, stack: &[(u64, bool)]) -> bool {
        let is_ended = |open: &&(u64, bool)| open.1 && self.is_ended_strictly(open.0, id);
        let closing = stack.iter().rev().take_while(is_ended).count();
        let kept = &stack[..stack.len() - closing];
        let masters: Vec<u64> = kept.iter().map(|open| open.0).collect();
        kept.iter().find(is_ended).is_none() && is_along(self.path(id), 0, &masters)
    }
}

/// Whether the masters are the path. A Global stands for those before the part after it, as many as its bounds say.
fn is_along(path: &[Part], counter: u64, masters: &[u64]) -> bool {
    match (path, masters) {
        ([], _) => masters.is_empty(),
        ([Part::Global { min, .. }], []) => counter >= min.unwrap_or(0),
        (_, []) => false,
        ([Part::Id(id), rest @ ..], [master, above @ ..]) => id == master && is_along(rest, 0, above),
        ([Part::Global { min, .. }, Part::Id(id), rest @ ..], [master, above @ ..]) if id == master => {
            counter >= min.unwrap_or(0) && is_along(rest, 0, above)
        }
        ([Part::Global { max, .. }, ..], [_, above @ ..]) => {
            max.is_none_or(|max| counter < max) && is_along(path, counter + 1, above)
        }
    }
}
