//! Whole streams, from a fresh decoder to the end of input.

use crate::clock::{measure, Patience, Times};
use crate::inputs::{ascii, deep, night, payloads, repeated, unknown_night};
use crate::tables::{words, Deep, Document, Of16, Of32, Of64, Table, Words};
use crate::{from_c, ours, rust_side, seen::Seen};
use bytes::BytesMut;
use std::hint::black_box;

const CHUNK: usize = 64;
const LARGE: usize = 1 << 20;

/// A stream with its table on both sides.
pub struct Input {
    name: &'static str,
    stream: Vec<u8>,
    chunk: usize,
    words: Words,
    rust: fn(&[u8], usize, BytesMut) -> Seen,
}

fn input<T: Table>(name: &'static str, stream: Vec<u8>, chunk: usize) -> Input {
    Input {
        name,
        stream,
        chunk,
        words: words::<T>(),
        rust: rust_side::decode::<T>,
    }
}

fn all() -> Vec<Input> {
    vec![
        input::<Document>("night of 1 feed", night(1), 0),
        input::<Document>("night of 100 feeds", night(100), 0),
        input::<Document>("night of 10,000 feeds", night(10_000), 0),
        input::<Document>("night of 1 feed, 64-byte chunks", night(1), CHUNK),
        input::<Document>("night of 100 feeds, 64-byte chunks", night(100), CHUNK),
        input::<Document>("night of 10,000 feeds, 64-byte chunks", night(10_000), CHUNK),
        input::<Of64>("night of 100 feeds, table of 64 entries", night(100), 0),
        input::<Of64>("night of 10,000 feeds, table of 64 entries", night(10_000), 0),
        input::<Document>("10,000 feeds, all sizes unknown", unknown_night(10_000), 0),
        input::<Document>("10,000 feeds, all sizes unknown, 64-byte chunks", unknown_night(10_000), CHUNK),
        input::<Deep>("31 masters deep, 1,000 values", deep(31, 1_000), 0),
        input::<Deep>("31 masters deep, 1,000 values, 64-byte chunks", deep(31, 1_000), CHUNK),
        input::<Document>("8 binaries of 1 MiB", payloads(0xA4, &vec![0xC3; LARGE], 8), 0),
        input::<Document>("8 ASCII texts of 1 MiB", payloads(0xA3, &ascii(LARGE), 8), 0),
        input::<Document>("8 texts of 1 MiB, 3-byte characters", payloads(0xA3, &repeated("€", LARGE), 8), 0),
        input::<Document>("1,000 ASCII texts of 100 bytes", payloads(0xA3, &ascii(100), 1_000), 0),
        input::<Document>("a binary of 64 KiB, 64-byte chunks", payloads(0xA4, &vec![0xC3; 1 << 16], 1), CHUNK),
    ]
}

impl Input {
    fn ours(&self) -> Seen {
        ours::decode(&self.words, black_box(&self.stream), self.chunk)
    }

    fn from_c(&self, room: usize) -> Seen {
        from_c::decode(&self.words, black_box(&self.stream), self.chunk, room)
    }

    fn buffer(&self) -> BytesMut {
        match self.chunk {
            0 => BytesMut::from(&self.stream[..]),
            _ => BytesMut::new(),
        }
    }

    fn rust(&self, buffer: BytesMut) -> Seen {
        (self.rust)(black_box(&self.stream), self.chunk, buffer)
    }

    /// Both sides must see the same events to the end.
    fn checked(&self) -> Seen {
        let seen = self.ours();
        assert_eq!(seen, self.rust(self.buffer()), "{}", self.name);
        assert_eq!((seen.last, seen.position), (2, self.stream.len() as u64), "{}", self.name);
        seen
    }

    fn times(&self, patience: Patience, ours: impl Fn(&Input) -> Seen) -> Times {
        measure(
            patience,
            || {
                black_box(ours(self));
            },
            || self.buffer(),
            |buffer| {
                black_box(self.rust(buffer));
            },
        )
    }
}

pub fn report(patience: Patience) {
    println!("\n## Streams\n");
    println!("| stream | bytes | events | ours, ns an event | the Rust, ns an event | ours, million events/s | the Rust, million events/s | ours, MB/s | the Rust, MB/s | ours / Rust (time) |");
    println!("|---|---|---|---|---|---|---|---|---|---|");
    for input in all() {
        let events = input.checked().events as f64;
        let bytes = input.stream.len() as f64;
        let Times { ours, rust } = input.times(patience, Input::ours);
        println!(
            "| {} | {bytes} | {events} | {:.1} | {:.1} | {:.2} | {:.2} | {:.0} | {:.0} | {:.2} |",
            input.name,
            ours * 1e9 / events,
            rust * 1e9 / events,
            events / ours / 1e6,
            events / rust / 1e6,
            bytes / ours / 1e6,
            bytes / rust / 1e6,
            ours / rust,
        );
    }
}

/// The same streams by the C calls: an event a call, and many events a call.
pub fn report_from_c(patience: Patience) {
    println!("\n## The decoder from C, ns an event\n");
    println!("| stream | events | one by one | {} at a time | the Rust | one by one / Rust | at a time / Rust |", from_c::MANY);
    println!("|---|---|---|---|---|---|---|");
    for input in all() {
        let seen = input.checked();
        assert_eq!((seen, seen), (input.from_c(from_c::ONE), input.from_c(from_c::MANY)), "{}", input.name);
        let events = seen.events as f64;
        let one = input.times(patience, |input| input.from_c(from_c::ONE));
        let many = input.times(patience, |input| input.from_c(from_c::MANY));
        println!(
            "| {} | {events} | {:.1} | {:.1} | {:.1} | {:.2} | {:.2} |",
            input.name,
            one.ours * 1e9 / events,
            many.ours * 1e9 / events,
            one.rust.min(many.rust) * 1e9 / events,
            one.ours / one.rust,
            many.ours / many.rust,
        );
    }
}

/// How the cost of an event grows with one thing while the others stay.
pub fn report_growth(patience: Patience) {
    println!("\n## Growth, ns an event\n");
    println!("| what grows | to | ours | the Rust |\n|---|---|---|---|");
    for masters in [1, 2, 4, 8, 16, 31] {
        growth(patience, "depth, 1,000 values in the innermost", masters, input::<Deep>("depth", deep(masters, 1_000), 0));
    }
    growth(patience, "entries of the table, 100 feeds", 8, input::<Document>("table", night(100), 0));
    growth(patience, "entries of the table, 100 feeds", 16, input::<Of16>("table", night(100), 0));
    growth(patience, "entries of the table, 100 feeds", 32, input::<Of32>("table", night(100), 0));
    growth(patience, "entries of the table, 100 feeds", 64, input::<Of64>("table", night(100), 0));
    for feeds in [1, 10, 100, 1_000, 10_000, 100_000] {
        growth(patience, "feeds", feeds, input::<Document>("feeds", night(feeds), 0));
    }
    for bytes in [1 << 10, 1 << 14, 1 << 16, 1 << 18] {
        let stream = payloads(0xA4, &vec![0xC3; bytes], 1);
        growth(patience, "bytes of one binary, 64-byte chunks", bytes, input::<Document>("binary", stream, CHUNK));
    }
}

fn growth(patience: Patience, what: &str, to: usize, input: Input) {
    let events = input.checked().events as f64;
    let times = input.times(patience, Input::ours);
    println!("| {what} | {to} | {:.1} | {:.1} |", times.ours * 1e9 / events, times.rust * 1e9 / events);
}

pub fn once(side: &str, name: &str, count: usize) {
    let inputs = all();
    let input = inputs.iter().find(|input| input.name == name).expect("INPUT is the name of a stream");
    for _ in 0..count {
        let seen = match side {
            "ours" => input.ours(),
            "one" => input.from_c(from_c::ONE),
            "many" => input.from_c(from_c::MANY),
            _ => input.rust(input.buffer()),
        };
        black_box(seen);
    }
}
