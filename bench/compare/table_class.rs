//! The class of a call on a table: what decides its answer.

use judging::table::{Part, Table};
use oracle::fields::{list, word};
use std::collections::BTreeSet;

const MOST_ENTRIES: usize = 64;
const MOST_PARTS: u64 = 16;
const GREATEST_BOUND: u64 = 65_536;

/// The call's name, why it has its answer, and the answer.
pub fn class(table: Option<&Table>, call: &str, answer: &str) -> String {
    let fields: Vec<&str> = call.split(' ').collect();
    let reason = match (&fields[..], table) {
        (["table", entries, parts], _) => shape(entries, parts),
        (["check"], Some(table)) => Some(faults(table)),
        (["ended", master, id], Some(table)) => ending(table, master, id),
        (["path", id, stack], Some(table)) => walk(table, id, stack),
        _ => None,
    };
    let answer = if fields[0] == "check" { "" } else { answer };
    format!("{} {} {answer}", fields[0], reason.unwrap_or_default())
}

/// What is wrong with the shape, or just right, if it is one thing.
fn shape(entries: &str, parts: &str) -> Option<String> {
    let (entries, parts) = (list(entries, word)?, list(parts, word)?);
    let count = (parts.len() / 3) as u64;
    let traits = entries
        .chunks_exact(4)
        .flat_map(|words| entry_traits(words, count))
        .chain(parts.chunks_exact(3).flat_map(part_traits))
        .chain(length_traits(entries.len(), parts.len()));
    let traits: BTreeSet<&str> = traits.collect();
    Some(match traits.len() {
        0 | 1 => traits.into_iter().collect(),
        _ => "several".to_string(),
    })
}

fn length_traits(entries: usize, parts: usize) -> Vec<&'static str> {
    present(&[
        (entries % 4 == 1, "entry of 1"),
        (entries % 4 == 2, "entry of 2"),
        (entries % 4 == 3, "entry of 3"),
        (parts % 3 == 1, "part of 1"),
        (parts % 3 == 2, "part of 2"),
        (entries / 4 == MOST_ENTRIES, "most entries"),
        (entries / 4 > MOST_ENTRIES, "entries"),
    ])
}

fn entry_traits(words: &[u64], parts: u64) -> Vec<&'static str> {
    let (kind, first, count) = (words[1], words[2], words[3]);
    let end = first.checked_add(count);
    let is_beyond = end.is_some_and(|end| end > parts);
    present(&[
        (kind > 5, "type"),
        (count == MOST_PARTS, "longest path"),
        (count > MOST_PARTS, "path"),
        (end.is_none(), "wraps"),
        (is_beyond && count == 0, "empty beyond"),
        (is_beyond && count > 0, "beyond"),
    ])
}

fn part_traits(words: &[u64]) -> Vec<&'static str> {
    let (sort, low, high) = (words[0], words[1], words[2]);
    present(&[
        (sort > 1, "sort"),
        (sort == 0 && high > 0, "third word"),
        (sort == 1 && low == GREATEST_BOUND, "greatest min"),
        (sort == 1 && low > GREATEST_BOUND, "min"),
        (sort == 1 && high == GREATEST_BOUND, "greatest max"),
        (sort == 1 && high > GREATEST_BOUND, "max"),
    ])
}

fn present(traits: &[(bool, &'static str)]) -> Vec<&'static str> {
    traits
        .iter()
        .filter(|(is_there, _)| *is_there)
        .map(|(_, name)| *name)
        .collect()
}

/// The rules that the lowest faulty entry breaks, and the first rule of the next one.
fn faults(table: &Table) -> String {
    let mut faults = table.faults().map(|(_, rules)| rules);
    format!("{:?} {:?}", faults.next(), faults.next().map(|rules| rules[0]))
}

/// Which of the reasons to end hold, and what the two are in the table.
fn ending(table: &Table, master: &str, id: &str) -> Option<String> {
    let (master, id) = (word(master)?, word(id)?);
    let (path, own) = (table.path(master), table.path(id));
    let facts = [
        master == id,
        table.first(master).is_some(),
        table.first(id).is_some(),
        path.contains(&Part::Id(id)),
        path == own,
        own.is_empty(),
        path.iter().any(Part::is_global),
        own.iter().any(Part::is_global),
    ];
    Some(facts.iter().map(|fact| if *fact { 'y' } else { 'n' }).collect())
}

/// The steps of the path walk, a letter for each and one for a row of the same; and whether a master of Unknown size
/// was passed.
fn walk(table: &Table, id: &str, stack: &str) -> Option<String> {
    let stack = list(stack, |item| {
        let (id, size) = item.split_once(':')?;
        Some((word(id)?, size == "u"))
    })?;
    let mut letters: Vec<char> = steps(table, word(id)?, &stack).chars().collect();
    let is_passed = stack.iter().take(letters.len() - 1).any(|(_, is_unknown)| *is_unknown);
    letters.dedup();
    Some(format!("{} {is_passed}", String::from_iter(letters)))
}

fn steps(table: &Table, id: u64, stack: &[(u64, bool)]) -> String {
    let path = table.path(id);
    let (mut marker, mut counter) = (0, 0);
    let mut letters = String::new();
    for (master, is_unknown) in stack {
        if *is_unknown && is_ended(table, *master, id) {
            return letters + "u";
        }
        let letter = match path.get(marker) {
            None => 'p',
            Some(Part::Id(part)) if part == master => 'i',
            Some(Part::Id(_)) => 'x',
            Some(Part::Global { max: Some(max), .. }) if counter == *max => 'o',
            Some(Part::Global { min, .. }) if path.get(marker + 1) == Some(&Part::Id(*master)) => {
                against(counter + 1, *min, ['b', 'n', 'N'])
            }
            Some(Part::Global { max: Some(max), .. }) if counter + 1 == *max => 'M',
            Some(Part::Global { .. }) => 'g',
        };
        letters.push(letter);
        (marker, counter) = match letter {
            'i' => (marker + 1, counter),
            'n' | 'N' => (marker + 2, 0),
            'g' | 'M' => (marker, counter + 1),
            _ => return letters,
        };
    }
    letters.push(match path.get(marker..) {
        Some([]) => 'E',
        Some([Part::Global { min, .. }]) => against(counter, *min, ['l', 'm', 'L']),
        _ => 's',
    });
    letters
}

/// A letter for a count below its least, for one just at it, and for one above.
fn against(counter: u64, min: Option<u64>, [below, at, above]: [char; 3]) -> char {
    match min {
        Some(min) if counter < min => below,
        Some(min) if counter == min => at,
        _ => above,
    }
}

fn is_ended(table: &Table, master: u64, id: u64) -> bool {
    let path = table.path(master);
    let own = table.path(id);
    path.contains(&Part::Id(id)) || path == own || (own.is_empty() && table.first(id).is_some())
}
