//! A script of calls, one on each line.

use std::fs::File;
use std::io::{self, BufWriter, Write};
use std::path::Path;

pub struct Script {
    file: BufWriter<File>,
}

impl Script {
    pub fn create(folder: &Path, name: &str) -> io::Result<Self> {
        let file = BufWriter::new(File::create(folder.join(format!("{name}.calls")))?);
        Ok(Script { file })
    }

    pub fn line(&mut self, line: impl AsRef<[u8]>) -> io::Result<()> {
        self.file.write_all(line.as_ref())?;
        self.file.write_all(b"\n")
    }

    pub fn lines(&mut self, lines: impl IntoIterator<Item = String>) -> io::Result<()> {
        lines.into_iter().try_for_each(|line| self.line(line))
    }

    pub fn finish(mut self) -> io::Result<()> {
        self.file.flush()
    }
}

/// A list as a call has it: the items with commas between them, `-` for none.
pub fn listed(items: impl IntoIterator<Item = String>) -> String {
    let items: Vec<String> = items.into_iter().collect();
    if items.is_empty() {
        return "-".to_string();
    }
    items.join(",")
}
