//! The table check of document 01, rule 31 as document 02 has it; the Rust has none.

use crate::table::{Part, Table};

impl Table {
    /// The answer to `check`.
    pub fn check(&self) -> String {
        match self.faults().next() {
            Some((place, rules)) => format!("X {} {place}", rules[0]),
            None => "ok".to_string(),
        }
    }

    /// The faulty entries, each with the rules that it breaks.
    pub fn faults(&self) -> impl Iterator<Item = (usize, Vec<u64>)> + '_ {
        (0..self.entries.len())
            .map(|place| (place, self.broken_rules(place)))
            .filter(|(_, rules)| !rules.is_empty())
    }

    fn broken_rules(&self, place: usize) -> Vec<u64> {
        let entry = &self.entries[place];
        let holds = [
            (31, is_element_id(entry.id)),
            (32, self.entries[..place].iter().all(|earlier| earlier.id != entry.id)),
            (33, !entry.is_master || !entry.path.iter().any(Part::is_global)),
            (
                34,
                ids(&entry.path).all(|(_, id)| self.first(id).is_some_and(|parent| parent.is_master)),
            ),
            (
                35,
                ids(&entry.path).all(|(before, id)| self.stands_after(id, &entry.path[..before])),
            ),
        ];
        holds
            .into_iter()
            .filter(|(_, holds)| !holds)
            .map(|(rule, _)| rule)
            .collect()
    }

    fn stands_after(&self, id: u64, before: &[Part]) -> bool {
        before.iter().any(Part::is_global) || self.path(id) == before
    }
}

/// The IDs of a path, each with its place.
fn ids(path: &[Part]) -> impl Iterator<Item = (usize, u64)> + '_ {
    path.iter().enumerate().filter_map(|(place, part)| match part {
        Part::Id(id) => Some((place, *id)),
        Part::Global { .. } => None,
    })
}

/// The IDs of each length lie between two limits: the least data is what a byte less does not hold but as all ones, and
/// not 0; the greatest is all ones less 1.
fn is_element_id(id: u64) -> bool {
    (1..=8).any(|length| {
        let marker = 1u64 << (7 * length);
        let least = ((marker >> 7) - 1).max(1);
        (marker + least..=2 * marker - 2).contains(&id)
    })
}
