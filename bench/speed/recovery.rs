//! A recovery over bytes without a valid header, beside a header read at each byte and beside the Rust, which returns
//! only where no header reads.

use crate::clock::{measure, Patience};
use crate::tables::{words, Document, Words};
use crate::{ours, rust_side};
use bytes::BytesMut;
use std::hint::black_box;

const BYTES: usize = 6 << 10;

pub fn report(patience: Patience) {
    println!("\n## Recovery, ns a byte passed over\n");
    println!("| bytes that hold | bytes | ours | a header read at each | ours / header | the Rust |\n|---|---|---|---|---|---|");
    row(patience, "no header", &[0x00], true);
    row(patience, "headers with an ID that the table has not", &[0x80], false);
    row(patience, "headers, of six one with a size over the greatest", &[0xA4, 0x08, 0xFF, 0xFF, 0xFF, 0xFF], false);
}

fn row(patience: Patience, name: &str, unit: &[u8], is_passed_by_rust: bool) {
    let table = words::<Document>();
    let input: Vec<u8> = unit.iter().copied().cycle().take(BYTES).collect();
    let passed = ours::recover(&table, &input);
    assert!(input.len() - passed < 8, "{name}");
    let per_byte = 1e9 / passed as f64;
    let ours = || {
        black_box(ours::recover(&table, black_box(&input)));
    };
    let times = measure(patience, ours, || (), |()| headers(&table, &input));
    println!(
        "| {name} | {BYTES} | {:.1} | {:.1} | {:.2} | {} |",
        times.ours * per_byte,
        times.rust * per_byte,
        times.ours / times.rust,
        if is_passed_by_rust { rust(patience, &table, &input, per_byte) } else { "-".to_string() },
    );
}

fn headers(table: &Words, input: &[u8]) {
    black_box(ours::read_headers(table, black_box(input)));
}

fn rust(patience: Patience, table: &Words, input: &[u8], per_byte: f64) -> String {
    let passed = ours::recover(table, input);
    assert_eq!(rust_side::recover::<Document>(BytesMut::from(input)), passed);
    let times = measure(
        patience,
        || headers(table, input),
        || BytesMut::from(input),
        |buffer| {
            black_box(rust_side::recover::<Document>(black_box(buffer)));
        },
    );
    format!("{:.1}", times.rust * per_byte)
}
