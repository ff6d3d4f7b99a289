//! `is_utf8` beside `str::from_utf8`.

use crate::clock::{measure, Patience};
use crate::inputs::{ascii, repeated};
use crate::ours;
use std::hint::black_box;

const LARGE: usize = 1 << 20;

pub fn report(patience: Patience) {
    println!("\n## Text: `is_utf8` beside `str::from_utf8`\n");
    println!("| text | bytes | ours, GB/s | the Rust, GB/s | ours / Rust (time) |\n|---|---|---|---|---|");
    for (name, text) in [
        ("ASCII", ascii(LARGE)),
        ("characters of 2 bytes", repeated("é", LARGE)),
        ("characters of 3 bytes", repeated("€", LARGE)),
        ("characters of 4 bytes", repeated("🍼", LARGE)),
        ("English, a long dash in each 40 bytes", repeated("a night of feeds is written, as always — ", LARGE)),
        ("German", repeated("Die Nährpumpe schreibt über Nacht größere Mengen. ", LARGE)),
        ("Japanese", repeated("夜間の栄養ポンプ。", LARGE)),
        ("all lengths in turns", repeated("aé€🍼", LARGE)),
        ("ASCII", ascii(5)),
        ("ASCII", ascii(20)),
        ("ASCII", ascii(70)),
        ("German", repeated("für ", 5)),
        ("German", repeated("Nährlösung ml/h ", 70)),
    ] {
        row(patience, name, &text);
    }
}

fn row(patience: Patience, name: &str, text: &[u8]) {
    assert!(ours::is_utf8(text) && std::str::from_utf8(text).is_ok());
    let times = measure(
        patience,
        || {
            black_box(ours::is_utf8(black_box(text)));
        },
        || (),
        |()| {
            black_box(std::str::from_utf8(black_box(text)).is_ok());
        },
    );
    let rate = |seconds: f64| text.len() as f64 / seconds / 1e9;
    println!(
        "| {name} | {} | {:.2} | {:.2} | {:.2} |",
        text.len(),
        rate(times.ours),
        rate(times.rust),
        times.ours / times.rust
    );
}
