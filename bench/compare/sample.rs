//! Usage: sample FOLDER CALLS ANSWERS NAME..
//! Picks a telling sample of the calls in FOLDER/NAME.calls and writes it to CALLS, and what ours must answer to
//! ANSWERS. A short script is taken whole. Of the others the same number is taken of each class of calls.

mod decoder_sample;
mod number_class;
mod table_class;
mod table_sample;

use judging::calls::{answers, calls};
use judging::listed::{Expected, Listing};
use std::collections::{HashMap, HashSet};
use std::fs::File;
use std::io::{BufWriter, Write};
use std::path::{Path, PathBuf};
use std::{env, io};

const OF_EACH_CLASS: usize = 3;
const SHORT_SCRIPT: usize = 200;
const LONGEST_SAMPLED: usize = 120;

struct Answered {
    call: String,
    answer: String,
    class: String,
}

fn main() -> io::Result<()> {
    let mut arguments = env::args().skip(1);
    let mut next = || arguments.next().expect("usage: sample FOLDER CALLS ANSWERS NAME..");
    let folder = PathBuf::from(next());
    let mut calls_file = BufWriter::new(File::create(next())?);
    let mut answers_file = BufWriter::new(File::create(next())?);
    let (on_decoders, others): (Vec<String>, Vec<String>) = arguments.partition(|name| name.starts_with("decoder"));
    let (on_tables, on_numbers): (Vec<String>, Vec<String>) =
        others.into_iter().partition(|name| name.starts_with("table"));
    let mut picked = sample(&folder, &on_numbers)?;
    picked.extend(table_sample::sample(&folder, &on_tables)?);
    picked.extend(decoder_sample::sample(&folder, &on_decoders)?);
    for Answered { call, answer, .. } in picked {
        writeln!(calls_file, "{call}")?;
        writeln!(answers_file, "{answer}")?;
    }
    calls_file.flush()?;
    answers_file.flush()
}

fn sample(folder: &Path, names: &[String]) -> io::Result<Vec<Answered>> {
    let mut picked = Vec::new();
    let mut others = Vec::new();
    for name in names {
        let all = answered(folder, name)?;
        let heap = if all.len() <= SHORT_SCRIPT {
            &mut picked
        } else {
            &mut others
        };
        heap.extend(all.into_iter().filter(|call| is_sampled(call, LONGEST_SAMPLED)));
    }
    let mut seen = HashSet::new();
    others.retain(|Answered { call, .. }| seen.insert(call.clone()));
    picked.extend(of_each_class(others));
    Ok(picked)
}

fn answered(folder: &Path, name: &str) -> io::Result<Vec<Answered>> {
    let calls = calls(folder, name)?;
    let answers = answers(folder, name, "rust")?;
    let mut listing = Listing::new();
    calls
        .zip(answers)
        .map(|(call, rust)| Ok(expected_answer(&mut listing, call, &rust?)))
        .collect()
}

fn expected_answer(listing: &mut Listing, call: String, rust: &str) -> Answered {
    let answer = match listing.expected(&call, rust) {
        Expected::Same => rust.to_string(),
        Expected::Listed { ours, .. } => ours,
        Expected::Anything => unreachable!("no session of the sampled scripts is read strictly"),
    };
    let class = match call.split(' ').next() {
        Some("table" | "check" | "ended" | "path") => table_class::class(listing.table(), &call, &answer),
        Some("new" | "allow" | "max" | "strict" | "decode" | "eof" | "recover" | "st" | "set") => String::new(),
        _ => number_class::class(&call, &answer),
    };
    Answered { call, answer, class }
}

fn is_sampled(answered: &Answered, longest: usize) -> bool {
    answered.call.len() <= longest
        && answered
            .call
            .bytes()
            .all(|byte| byte == b' ' || byte.is_ascii_graphic())
}

fn of_each_class(all: Vec<Answered>) -> Vec<Answered> {
    let mut sizes: HashMap<String, usize> = HashMap::new();
    for Answered { class, .. } in &all {
        *sizes.entry(class.clone()).or_default() += 1;
    }
    let mut seen: HashMap<String, usize> = HashMap::new();
    let mut picked = Vec::new();
    for answered in all {
        let place = seen.entry(answered.class.clone()).or_default();
        let is_picked = is_picked(*place, sizes[&answered.class]);
        *place += 1;
        if is_picked {
            picked.push(answered);
        }
    }
    picked
}

fn is_picked(place: usize, size: usize) -> bool {
    size <= OF_EACH_CLASS || (0..OF_EACH_CLASS).any(|turn| place == turn * (size - 1) / (OF_EACH_CLASS - 1))
}
