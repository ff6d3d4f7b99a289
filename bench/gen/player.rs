//! Writes calls into a script and has the Rust answer them, since what the next call lends depends on what the last
//! one took.

use crate::prng::Prng;
use crate::script::Script;
use crate::table::of_document;
use oracle::fields::hex;
use oracle::Oracle;
use std::io;
use std::path::Path;

pub struct Player {
    script: Script,
    oracle: Oracle,
}

/// What the script needs to know of an answer.
#[derive(Clone, Copy, PartialEq)]
pub enum Outcome {
    Event,
    NeedMore,
    Finished,
    Found,
    NotFound,
    Refused,
}

impl Player {
    pub fn create(folder: &Path, name: &str) -> io::Result<Self> {
        Ok(Player {
            script: Script::create(folder, name)?,
            oracle: Oracle::default(),
        })
    }

    pub fn call(&mut self, line: &str) -> io::Result<String> {
        self.script.line(line)?;
        Ok(self.oracle.answer(line.as_bytes()).unwrap_or_default())
    }

    pub fn calls(&mut self, lines: &[&str]) -> io::Result<()> {
        lines.iter().try_for_each(|line| self.call(line).map(drop))
    }

    /// Lends the unread bytes and drops those that were taken.
    pub fn lend(&mut self, name: &str, unread: &mut Vec<u8>) -> io::Result<Outcome> {
        let answer = self.call(&format!("{name} {}", hex(unread)))?;
        let mut words = answer
            .split(' ')
            .skip_while(|word| matches!(*word, "NOSTRICT" | "PANIC" | "HANGS" | "LIMIT"));
        let outcome = match words.next() {
            Some("N") => Outcome::NeedMore,
            Some("F") => Outcome::Finished,
            Some("Y") => Outcome::Found,
            Some("Q") => Outcome::NotFound,
            Some("X" | "NOTABLE" | "BADLINE") => Outcome::Refused,
            _ => Outcome::Event,
        };
        let taken = words
            .find_map(|word| word.strip_prefix("t="))
            .map_or(0, |taken| taken.parse().unwrap_or(0));
        unread.drain(..taken);
        Ok(outcome)
    }

    pub fn lend_document_table(&mut self) -> io::Result<()> {
        self.call(&of_document().call(&mut Prng::new(0))).map(drop)
    }

    /// Decodes, and at need more ends the input, until something is refused or all is finished.
    pub fn to_the_end(&mut self, mut unread: Vec<u8>, with_state: bool) -> io::Result<()> {
        let mut name = "decode";
        loop {
            let outcome = self.lend(name, &mut unread)?;
            if with_state {
                self.call("st")?;
            }
            match outcome {
                Outcome::Event => {}
                Outcome::NeedMore => name = "eof",
                _ => return Ok(()),
            }
        }
    }

    pub fn finish(self) -> io::Result<()> {
        self.script.finish()
    }
}
