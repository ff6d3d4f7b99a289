//! A record restored from a block, and stored again: the Rust has neither.

use crate::clock::{measure, Patience};
use crate::ours;
use std::hint::black_box;

const WORDS: usize = 320;

pub fn report(patience: Patience) {
    println!("\n## Stored blocks, ns a call\n");
    println!("| the record | restored | restored and stored |\n|---|---|---|");
    row(patience, "fresh", &block(0, 0));
    row(patience, "2 masters open", &block(2, 0));
    row(patience, "32 masters open, 32 Ends waiting", &block(32, 32));
}

/// A block of layout 2 with so many masters, sizes known, and so many Ends, at position 1,000.
fn block(open: u64, waiting: u64) -> Vec<u8> {
    let mut words = [0; WORDS];
    words[0] = 2;
    words[7] = 1_000;
    words[10] = open;
    words[203] = waiting;
    for k in 0..open as usize {
        words[11 + 6 * k..17 + 6 * k].copy_from_slice(&[0xA1, 1, 5_000, 3, 5, 2]);
    }
    for k in 0..waiting as usize {
        words[204 + 3 * k..207 + 3 * k].copy_from_slice(&[0xA1, 3, 2]);
    }
    words.iter().flat_map(|word: &u64| word.to_be_bytes()).collect()
}

fn row(patience: Patience, name: &str, block: &[u8]) {
    let mut out = vec![0; block.len()];
    assert_eq!((ours::restore(block), ours::restore_and_store(block, &mut out)), (0, 0), "{name}");
    assert_eq!(out, block, "{name}");
    let both = |()| {
        black_box(ours::restore_and_store(black_box(block), &mut out));
    };
    let restored = || {
        black_box(ours::restore(black_box(block)));
    };
    let times = measure(patience, restored, || (), both);
    println!("| {name} | {:.0} | {:.0} |", times.ours * 1e9, times.rust * 1e9);
}
