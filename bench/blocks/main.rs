//! Blocks of a stored decoder, by the thousand: records stored and read back, and blocks damaged at every bit, at the
//! limits of every word and in every length, each with the answer of the model. Writes blocks.calls and
//! blocks.expected into the folder named.

mod model;
#[path = "../gen/prng.rs"]
#[allow(dead_code)]
mod prng;
mod script;

use model::{as_layout_1, store, End, Master, Record, PLACES, WORDS};
use prng::Prng;
use script::Script;
use std::io;
use std::path::Path;

const RECORDS: usize = 600;
const RANDOM_BLOCKS: usize = 2_000;
const IDS: [u64; 5] = [0x4E01, 0xA1, 0xEC, 0, u64::MAX];

fn flag(prng: &mut Prng) -> bool {
    prng.below(2) == 1
}

/// How many places are used: often none, one or all.
fn places(prng: &mut Prng) -> usize {
    match prng.below(4) {
        0 => 0,
        1 => PLACES,
        _ => 1 + prng.index(PLACES),
    }
}

/// A number up to this one, often itself or one more.
fn around(prng: &mut Prng, most: u64, over: bool) -> u64 {
    match prng.below(4) {
        0 => 0,
        1 => most,
        2 if over => most.saturating_add(1),
        _ => prng.of_any_magnitude() % most.max(1),
    }
}

/// A record; where `over` is said, now and then beyond what refusal 11 allows.
fn record(prng: &mut Prng, over: bool) -> Record {
    let position = around(prng, 1 << 62, over);
    let master = |prng: &mut Prng| Master {
        id: prng.pick(&IDS),
        size: flag(prng).then(|| around(prng, (1 << 56) + position, over)),
        start: prng.of_any_magnitude(),
        data: around(prng, position, false),
        count: around(prng, position, false),
    };
    let mut r = Record {
        allowed: [flag(prng), flag(prng), flag(prng)],
        strict: flag(prng),
        greatest: flag(prng).then(|| prng.of_any_magnitude()),
        position,
        settled: flag(prng),
        finished: flag(prng),
        open: (0..places(prng)).map(|_| master(prng)).collect(),
        waiting: (0..places(prng))
            .map(|_| End { id: prng.pick(&IDS), offset: prng.of_any_magnitude(), count: around(prng, position, false) })
            .collect(),
    };
    if over {
        beyond(prng, &mut r);
    }
    r
}

/// One number of the record one over what refusal 11 allows, or just there.
fn beyond(prng: &mut Prng, r: &mut Record) {
    let number = r.position + prng.below(2);
    let (open, waiting) = (r.open.len().max(1), r.waiting.len().max(1));
    match prng.below(3) {
        0 => r.open.iter_mut().skip(prng.index(open)).take(1).for_each(|m| m.data = number),
        1 => r.open.iter_mut().skip(prng.index(open)).take(1).for_each(|m| m.count = number),
        _ => r.waiting.iter_mut().skip(prng.index(waiting)).take(1).for_each(|e| e.count = number),
    }
}

/// Stored, read back, read by a decoder that holds another record.
fn there_and_back(script: &mut Script, prng: &mut Prng) -> io::Result<()> {
    for turn in 0..RECORDS {
        let r = record(prng, turn % 3 == 2);
        script.set(&r)?;
        script.store(8 * WORDS)?;
        let Ok(words) = store(&r) else { continue };
        script.set(&record(prng, false))?;
        script.restore(&words, &[])?;
        script.store(8 * WORDS)?;
        script.restore(&as_layout_1(&words), &[])?;
        script.store(8 * WORDS)?;
    }
    Ok(())
}

/// Blocks of every kind, in both layouts: nothing used, everything used, something.
fn blocks(prng: &mut Prng) -> Vec<Vec<u64>> {
    let mut all = Vec::new();
    let mut full = record(prng, false);
    full.position = 1 << 40;
    full.open = (1..=PLACES as u64).map(|k| Master { id: 0xA1, size: (k % 2 == 0).then_some(k), start: k, data: k, count: k }).collect();
    full.waiting = (1..=PLACES as u64).map(|k| End { id: 0x4E01, offset: k, count: k }).collect();
    let mut half = full.clone();
    half.open.truncate(5);
    half.waiting.truncate(3);
    half.greatest = None;
    for r in [Record::default(), half, full] {
        let words = store(&r).expect("a record that is stored");
        all.push(as_layout_1(&words));
        all.push(words);
    }
    all
}

/// Each bit of a block flipped.
fn flipped(script: &mut Script, block: &[u64]) -> io::Result<()> {
    for bit in 0..64 * WORDS {
        let mut words = block.to_vec();
        words[bit / 64] ^= 1 << (63 - bit % 64);
        script.restore(&words, &[])?;
    }
    Ok(())
}

/// Each word of a block at its limits.
fn limits(script: &mut Script, block: &[u64]) -> io::Result<()> {
    let telling = [0, 1, 2, 3, 31, 32, 33, 1 << 32, 1 << 56, 1 << 62, (1 << 62) + 1, (1 << 56) + (1 << 40), (1 << 56) + (1 << 40) + 1, u64::MAX];
    for place in 0..WORDS {
        for value in telling {
            let mut words = block.to_vec();
            words[place] = value;
            script.restore(&words, &[])?;
        }
    }
    Ok(())
}

/// Every length from 0 bytes to one too many, to store into and to read.
fn lengths(script: &mut Script, block: &[u64]) -> io::Result<()> {
    for bytes in 0..=8 * WORDS + 1 {
        script.store(bytes)?;
        let words = &block[..(bytes / 8).min(WORDS)];
        script.restore(words, &vec![0; bytes - 8 * words.len()])?;
    }
    Ok(())
}

fn main() -> io::Result<()> {
    let folder = std::env::args().nth(1).expect("the folder to write to");
    let mut script = Script::create(Path::new(&folder))?;
    let mut prng = Prng::new(14);
    there_and_back(&mut script, &mut prng)?;
    let all = blocks(&mut prng);
    for block in &all[2..] {
        flipped(&mut script, block)?;
    }
    for block in &all {
        limits(&mut script, block)?;
    }
    lengths(&mut script, all.last().expect("blocks"))?;
    for _ in 0..RANDOM_BLOCKS {
        let mut words: Vec<u64> = (0..WORDS).map(|_| prng.of_any_magnitude() & 3).collect();
        words[0] = 1 + prng.below(3);
        script.restore(&words, &[])?;
    }
    println!("{} lines", script.lines);
    Ok(())
}
