//! Usage: gen FOLDER [SEED]
//! Writes the bench's scripts of calls into FOLDER. The same seed gives the same scripts.

// A module uses only what stands in a group above its own.
mod limits;
mod prng;
mod script;
mod strings;

mod counts;
mod table;

mod player;
mod stream;

mod lines;
mod numbers;
mod payloads;
mod records;
mod sessions;
mod short;
mod tables;

mod decoder;

use std::path::PathBuf;
use std::{env, io};

const SEED: u64 = 8794;

fn main() -> io::Result<()> {
    oracle::silence_panics();
    let mut arguments = env::args().skip(1);
    let folder = PathBuf::from(arguments.next().expect("usage: gen FOLDER [SEED]"));
    let seed = arguments
        .next()
        .map_or(SEED, |seed| seed.parse().expect("SEED is a number"));
    lines::generate(&folder)?;
    numbers::generate(&folder, seed)?;
    tables::generate(&folder, seed)?;
    decoder::generate(&folder, seed)
}
