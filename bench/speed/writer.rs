//! Lists written as documents: ours by the C call `ebml_write`, the Rust's own writer beside it, which checks no table
//! and grows its buffer as it goes. The numbers are such that both write the same bytes.

use crate::clock::{measure, Patience};
use crate::ours;
use crate::rust_side::{self, Tag, Value};
use crate::tables::{words, Chain, Document, Table, Words};
use std::hint::black_box;

const DEPTH: u64 = 16;

/// A list on both sides.
struct Input {
    name: String,
    words: Words,
    items: Vec<u64>,
    values: Vec<u8>,
    rust: Box<dyn Fn() -> Vec<u8>>,
}

/// Items in the order of the list, for both sides at once.
struct List<T> {
    items: Vec<u64>,
    values: Vec<u8>,
    tags: Vec<Tag<T>>,
}

impl<T: Table + 'static> List<T> {
    fn new() -> Self {
        List { items: Vec::new(), values: Vec::new(), tags: Vec::new() }
    }

    fn mark(&mut self, kind: u64, id: u64, value: Value) {
        self.items.extend([kind, id, 0, 0]);
        self.tags.push(rust_side::tag(id, value));
    }

    fn start(&mut self, id: u64) {
        self.mark(0, id, Value::Start);
    }

    fn end(&mut self, id: u64) {
        self.mark(6, id, Value::End);
    }

    fn value(&mut self, kind: u64, id: u64, bytes: &[u8], value: Value) {
        self.items.extend([kind, id, self.values.len() as u64, bytes.len() as u64]);
        self.values.extend_from_slice(bytes);
        self.tags.push(rust_side::tag(id, value));
    }

    fn unsigned(&mut self, id: u64, n: u64) {
        self.value(1, id, &n.to_be_bytes(), Value::Unsigned(n));
    }

    fn input(self, name: String) -> Input {
        let tags = self.tags;
        let rust = Box::new(move || rust_side::write(black_box(&tags)));
        Input { name, words: words::<T>(), items: self.items, values: self.values, rust }
    }
}

/// A session with so many feeds of four values: six items a feed, two more for the session.
fn night(feeds: u64) -> Input {
    let mut list = List::<Document>::new();
    list.start(0x4E01);
    for i in 0..feeds {
        let (shift, rate) = (1 + (i % 100) as i64, i as f64 / 8.0);
        list.start(0xA1);
        list.unsigned(0xA2, 60 + i % 200);
        list.value(3, 0xA3, b"ml", Value::Text("ml".to_string()));
        list.value(2, 0xA5, &shift.to_be_bytes(), Value::Integer(shift));
        list.value(5, 0xA6, &rate.to_be_bytes(), Value::Float(rate));
        list.end(0xA1);
    }
    list.end(0x4E01);
    list.input(format!("write a night, feeds: {feeds}"))
}

/// Masters in each other, 16 of them, and values in the innermost.
fn deep(values: u64) -> Input {
    let mut list = List::<Chain>::new();
    (0..DEPTH).for_each(|i| list.start(0xB0 + i));
    (0..values).for_each(|i| list.unsigned(0xA2, 1 + i % 100));
    (0..DEPTH).rev().for_each(|i| list.end(0xB0 + i));
    list.input(format!("write {DEPTH} masters deep, values: {values}"))
}

/// A feed with one binary of so many bytes.
fn binary(bytes: usize) -> Input {
    let mut list = List::<Document>::new();
    let data = vec![0xC3; bytes];
    list.start(0x4E01);
    list.start(0xA1);
    list.value(4, 0xA4, &data, Value::Binary(data.clone()));
    list.end(0xA1);
    list.end(0x4E01);
    list.input(format!("write a binary, bytes: {bytes}"))
}

fn all() -> Vec<Input> {
    vec![night(1), night(10), night(85), deep(1), deep(480), binary(1 << 20)]
}

impl Input {
    fn ours(&self, out: &mut [u8]) -> Option<u64> {
        ours::write(&self.words, black_box(&self.items), &self.values, out)
    }
}

pub fn report(patience: Patience) {
    println!("\n## Writer\n");
    println!("| list | items | bytes | ours, ns an item | the Rust, ns an item | ours, MB/s | the Rust, MB/s | ours / Rust (time) |");
    println!("|---|---|---|---|---|---|---|---|");
    for input in all() {
        let document = (input.rust)();
        let mut out = vec![0; document.len()];
        assert_eq!(input.ours(&mut out), Some(document.len() as u64), "{}", input.name);
        assert_eq!(out, document, "{}", input.name);
        let times = measure(
            patience,
            || {
                black_box(input.ours(&mut out));
            },
            || (),
            |()| {
                black_box((input.rust)());
            },
        );
        let (items, bytes) = (input.items.len() as f64 / 4.0, document.len() as f64);
        println!(
            "| {} | {items} | {bytes} | {:.1} | {:.1} | {:.1} | {:.1} | {:.2} |",
            input.name,
            times.ours * 1e9 / items,
            times.rust * 1e9 / items,
            bytes / times.ours / 1e6,
            bytes / times.rust / 1e6,
            times.ours / times.rust,
        );
    }
}

/// `speed once SIDE LIST COUNT` with a list of this part.
pub fn once(side: &str, name: &str, count: usize) {
    let inputs = all();
    let input = inputs.iter().find(|input| input.name == name).expect("LIST is the name of a list");
    let mut out = vec![0; (input.rust)().len()];
    for _ in 0..count {
        if side == "ours" {
            black_box(input.ours(&mut out));
        } else {
            black_box((input.rust)());
        }
    }
}
