//! Lines of a script of calls (replay-format-cr.md), and what they must answer.

use crate::model::{restore, store, Record, WORDS};
use std::fs::File;
use std::io::{self, BufWriter, Write};
use std::path::Path;

pub struct Script {
    calls: BufWriter<File>,
    answers: BufWriter<File>,
    /// the session's record, as the calls leave it
    pub record: Record,
    pub lines: u64,
}

fn listed<T>(items: &[T], text: impl Fn(&T) -> String) -> String {
    if items.is_empty() {
        return "-".to_string();
    }
    items.iter().map(text).collect::<Vec<_>>().join(",")
}

fn words_text(words: &[u64]) -> String {
    listed(words, |w| format!("{w:X}"))
}

/// A record as `st` prints it and `set` takes it.
fn fields(r: &Record) -> String {
    let allowed: u64 = (0..3).map(|i| u64::from(r.allowed[i]) << i).sum();
    let greatest = r.greatest.map_or("-".to_string(), |n| n.to_string());
    let open = listed(&r.open, |m| format!("{:X}:{}:{}:{}", m.id, m.size.map_or("u".to_string(), |n| n.to_string()), m.start, m.data));
    let waiting = listed(&r.waiting, |e| format!("{:X}:{}", e.id, e.offset));
    let counts = listed(&r.open, |m| m.count.to_string());
    let ended = listed(&r.waiting, |e| e.count.to_string());
    let (s, f, x) = (u64::from(r.settled), u64::from(r.finished), u64::from(r.strict));
    format!("a={allowed} m={greatest} p={} s={s} f={f} O={open} W={waiting} C={counts} V={ended} x={x}", r.position)
}

impl Script {
    pub fn create(folder: &Path) -> io::Result<Self> {
        let file = |name: &str| Ok::<_, io::Error>(BufWriter::new(File::create(folder.join(name))?));
        Ok(Script { calls: file("blocks.calls")?, answers: file("blocks.expected")?, record: Record::default(), lines: 0 })
    }

    fn line(&mut self, call: &str, answer: &str) -> io::Result<()> {
        self.lines += 1;
        writeln!(self.calls, "{call}")?;
        writeln!(self.answers, "{answer}")
    }

    /// Sets the session's record.
    pub fn set(&mut self, record: &Record) -> io::Result<()> {
        self.record = record.clone();
        self.line(&format!("set {}", fields(record)), "ok")
    }

    pub fn show(&mut self) -> io::Result<()> {
        let answer = format!("st {}", fields(&self.record));
        self.line("st", &answer)
    }

    /// Stores into a block of so many bytes.
    pub fn store(&mut self, bytes: usize) -> io::Result<()> {
        let answer = match store(&self.record) {
            _ if bytes != 8 * WORDS => "X 90".to_string(),
            Ok(words) => format!("K {}", words_text(&words)),
            Err(number) => format!("X {number}"),
        };
        self.line(&format!("store {bytes}"), &answer)
    }

    /// Restores from these words and the bytes after them, and shows the record.
    pub fn restore(&mut self, words: &[u64], tail: &[u8]) -> io::Result<()> {
        let is_whole = words.len() == WORDS && tail.is_empty();
        let answer = match if is_whole { restore(words) } else { Err(90) } {
            Ok(record) => {
                self.record = record;
                "ok".to_string()
            }
            Err(number) => format!("X {number}"),
        };
        let tail = if tail.is_empty() { "-".to_string() } else { tail.iter().map(|b| format!("{b:02X}")).collect() };
        self.line(&format!("restore {} {tail}", words_text(words)), &answer)?;
        self.show()
    }
}
