//! A table of good shape, as the comparison and the sample read it.

use oracle::fields::{list, word};

#[derive(Default)]
pub struct Table {
    pub entries: Vec<Entry>,
}

pub struct Entry {
    pub id: u64,
    pub is_master: bool,
    pub path: Vec<Part>,
}

#[derive(Clone, Copy, PartialEq)]
pub enum Part {
    Id(u64),
    Global { min: Option<u64>, max: Option<u64> },
}

impl Table {
    pub fn read(entries: &str, parts: &str) -> Option<Self> {
        let parts: Vec<Part> = list(parts, word)?.chunks(3).map(part).collect();
        let entries = list(entries, word)?;
        Some(Table {
            entries: entries.chunks(4).map(|words| entry(words, &parts)).collect(),
        })
    }

    /// The entry that counts for an ID.
    pub fn first(&self, id: u64) -> Option<&Entry> {
        self.entries.iter().find(|entry| entry.id == id)
    }

    pub fn path(&self, id: u64) -> &[Part] {
        self.first(id).map_or(&[], |entry| &entry.path)
    }
}

impl Part {
    pub fn is_global(&self) -> bool {
        matches!(self, Part::Global { .. })
    }
}

fn part(words: &[u64]) -> Part {
    match *words {
        [0, id, _] => Part::Id(id),
        _ => Part::Global {
            min: words[1].checked_sub(1),
            max: words[2].checked_sub(1),
        },
    }
}

fn entry(words: &[u64], parts: &[Part]) -> Entry {
    let (first, count) = (words[2] as usize, words[3] as usize);
    Entry {
        id: words[0],
        is_master: words[1] == 0,
        path: parts[first..first + count].to_vec(),
    }
}
