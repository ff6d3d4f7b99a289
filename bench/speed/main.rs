//! Usage: speed [SECONDS [PART..]]   or   speed once SIDE INPUT COUNT
//! Measures our decoder, writer, text check and number routines beside the Rust's, SECONDS on each row (0.4 if not
//! given), and prints tables. PART is one of streams, c, growth, recovery, blocks, writer, texts, numbers. `once` decodes
//! one stream or writes one list COUNT times on one side, for a profiler: SIDE is ours or rust, and of a stream also one
//! or many, by the C calls of an event and of many.

mod blocks;
mod clock;
mod from_c;
mod inputs;
mod numbers;
mod ours;
mod recovery;
mod rust_side;
mod seen;
mod streams;
mod tables;
mod texts;
mod writer;

use clock::Patience;
use std::env;
use std::time::Duration;

fn main() {
    let arguments: Vec<String> = env::args().skip(1).collect();
    if arguments.first().is_some_and(|word| word == "once") {
        return once(&arguments[1..]);
    }
    let seconds = arguments.first().map_or(0.4, |word| word.parse().expect("SECONDS is a number"));
    let patience = Patience(Duration::from_secs_f64(seconds));
    let wanted = |part: &str| arguments.len() < 2 || arguments[1..].iter().any(|word| word == part);
    if wanted("streams") {
        streams::report(patience);
    }
    if wanted("c") {
        streams::report_from_c(patience);
    }
    if wanted("growth") {
        streams::report_growth(patience);
    }
    if wanted("recovery") {
        recovery::report(patience);
    }
    if wanted("blocks") {
        blocks::report(patience);
    }
    if wanted("writer") {
        writer::report(patience);
    }
    if wanted("texts") {
        texts::report(patience);
    }
    if wanted("numbers") {
        numbers::report(patience);
    }
}

fn once(arguments: &[String]) {
    let [side, name, count] = arguments else {
        panic!("usage: speed once ours|rust|one|many INPUT COUNT");
    };
    let count = count.parse().expect("COUNT is a number");
    if name.starts_with("write ") {
        return writer::once(side, name, count);
    }
    streams::once(side, name, count);
}
