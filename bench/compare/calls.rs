//! The calls of a script beside their answers.

use std::fs::File;
use std::io::{self, BufRead, BufReader, Lines};
use std::path::Path;

/// The lines of a script that have an answer. Bytes that are no UTF-8 stand as replacement characters.
pub fn calls(folder: &Path, name: &str) -> io::Result<impl Iterator<Item = String>> {
    let file = BufReader::new(File::open(folder.join(format!("{name}.calls")))?);
    Ok(file
        .split(b'\n')
        .map(|line| String::from_utf8_lossy(&line.expect("a readable script")).into_owned())
        .filter(|line| has_answer(line)))
}

fn has_answer(line: &str) -> bool {
    line.len() > oracle::LONGEST_LINE || !(line.is_empty() || line.starts_with('#'))
}

pub fn answers(folder: &Path, name: &str, side: &str) -> io::Result<Lines<BufReader<File>>> {
    Ok(BufReader::new(File::open(folder.join(format!("{name}.{side}")))?).lines())
}
