//! Compares what the writer answered with the model, and what it wrote with the Rust.

use crate::model::{self, List, END, START};
use crate::rust_side::{decoded, is_as_short, said, written};
use crate::table::Table;
use crate::turns::Told;
use std::collections::BTreeMap;

const SHOWN: u64 = 5;
const SIZES: [u128; 12] = [125, 126, 127, 128, 16_381, 16_382, 16_383, 16_384, 2_097_149, 2_097_150, 2_097_151, 2_097_152];

/// What was seen.
#[derive(Default)]
pub struct Judge {
    pub lists: u64,
    documents: u64,
    items: u64,
    bytes: u64,
    most_items: usize,
    most_bytes: usize,
    deepest: usize,
    by_number: BTreeMap<u64, u64>,
    by_fault: BTreeMap<(&'static str, u64), u64>,
    by_size: BTreeMap<u128, u64>,
    rust_same: u64,
    rust_longer: u64,
    pub differences: u64,
}

/// The length written, or the refusal's number; and the output after the call.
pub type Answer<'a> = (Result<u64, u64>, &'a [u8]);

impl Judge {
    /// One list over the table that the Rust was lent last.
    pub fn judge(&mut self, table: Option<&Table>, told: &Told, answer: Answer) {
        self.lists += 1;
        let list = told.case.list(table);
        let expected = model::write(&list, told.case.out.len());
        let number = expected.as_ref().err().copied().unwrap_or(0);
        *self.by_fault.entry((told.name, number)).or_default() += 1;
        if told.refusal.is_some_and(|refusal| refusal != number) {
            self.differ(told, format!("the model answers {number}"));
        }
        match expected {
            Err(number) => {
                *self.by_number.entry(number).or_default() += 1;
                self.same(told, answer, (Err(number), &told.case.out));
            }
            Ok(document) => {
                let after = [&document[..], &told.case.out[document.len()..]].concat();
                self.same(told, answer, (Ok(document.len() as u64), &after));
                self.read_back(told, &list, &answer.1[..document.len().min(answer.1.len())]);
                self.count(&list, &document);
            }
        }
    }

    fn same(&mut self, told: &Told, answer: Answer, expected: Answer) {
        if answer.0 != expected.0 {
            self.differ(told, format!("answered {:?}, not {:?}", answer.0, expected.0));
        } else if answer.1 != expected.1 {
            let place = answer.1.iter().zip(expected.1).position(|(a, b)| a != b);
            self.differ(told, format!("the output differs, first at byte {place:?}"));
        }
    }

    /// The Rust's decoder reads what the list says, and the Rust's writer writes the same where it is as short.
    fn read_back(&mut self, told: &Told, list: &List, document: &[u8]) {
        let says = said(list.items, list.values);
        match decoded(document) {
            Ok(events) if events == says => (),
            Ok(events) => self.differ(told, format!("the Rust reads {} other events", events.len())),
            Err(why) => self.differ(told, format!("the Rust's decoder: {why}")),
        }
        let rust = written(says.clone());
        if is_as_short(list.items, list.values) {
            self.rust_same += 1;
            if rust.as_deref() != Ok(document) {
                self.differ(told, "the Rust's writer writes other bytes".to_string());
            }
        } else {
            self.rust_longer += 1;
            if rust.and_then(|bytes| decoded(&bytes)) != Ok(says) {
                self.differ(told, "the Rust's writer writes another document".to_string());
            }
        }
    }

    fn count(&mut self, list: &List, document: &[u8]) {
        self.documents += 1;
        self.items += list.items.len() as u64;
        self.bytes += document.len() as u64;
        self.most_items = self.most_items.max(list.items.len());
        self.most_bytes = self.most_bytes.max(document.len());
        let mut depth = 0;
        for item in list.items {
            depth = depth + usize::from(item.kind == START) - usize::from(item.kind == END);
            self.deepest = self.deepest.max(depth);
        }
        let sizes = model::sizes(list).map_or(Vec::new(), |sizes| sizes.of_items);
        for size in sizes.into_iter().filter(|size| SIZES.contains(size)) {
            *self.by_size.entry(size).or_default() += 1;
        }
    }

    pub fn differ(&mut self, told: &Told, what: String) {
        self.differences += 1;
        if self.differences <= SHOWN {
            eprintln!("list {}, {} items, wrong: {}: {what}", self.lists, told.case.items.len(), told.name);
        }
    }

    /// Prints the counts.
    pub fn report(&self, name: &str) {
        println!("{name}: {} lists, {} differences", self.lists, self.differences);
        let counts = |counts: &BTreeMap<u128, u64>| counts.iter().map(|(n, count)| format!("{n}: {count}")).collect::<Vec<_>>().join(", ");
        if self.documents > 0 {
            println!("  written: {} documents, {} items, {} bytes", self.documents, self.items, self.bytes);
            println!("  at most: {} items, {} bytes, {} masters deep", self.most_items, self.most_bytes, self.deepest);
            println!("  the Rust's writer: {} the same bytes, {} with longer numbers, the same events", self.rust_same, self.rust_longer);
            println!("  elements of size {}", counts(&self.by_size));
        }
        println!("  refusals {}", counts(&self.by_number.iter().map(|(n, count)| (u128::from(*n), *count)).collect()));
        for ((fault, number), count) in &self.by_fault {
            println!("    {fault}: {} {count}", if *number == 0 { "written".to_string() } else { format!("refusal {number}") });
        }
    }
}
