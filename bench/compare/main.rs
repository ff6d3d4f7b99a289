//! Usage: compare [--kinds] FOLDER NAME..
//! Compares FOLDER/NAME.ours with FOLDER/NAME.rust, the answers to FOLDER/NAME.calls, line by line, and prints counts;
//! with --kinds also how often each kind of call had each kind of answer. The result is 1 if a difference is not a
//! listed one.

mod apart;

use apart::Own;
use judging::calls::{answers, calls};
use judging::listed::{Expected, Listing};
use std::collections::BTreeMap;
use std::path::{Path, PathBuf};
use std::process::ExitCode;
use std::{env, io};

const SHOWN_DIFFERENCES: u64 = 10;
const SHOWN_WIDTH: usize = 200;

#[derive(Default)]
struct Counts {
    calls: u64,
    equal: u64,
    listed: BTreeMap<&'static str, u64>,
    unlisted: BTreeMap<String, u64>,
    /// read strictly, so that the Rust has no answer
    apart: u64,
    /// by the call's name, then by the kind of our answer
    kinds: BTreeMap<String, BTreeMap<String, u64>>,
}

fn main() -> io::Result<ExitCode> {
    let mut arguments = env::args().skip(1).peekable();
    let with_kinds = arguments.next_if(|word| word == "--kinds").is_some();
    let folder = PathBuf::from(arguments.next().expect("usage: compare [--kinds] FOLDER NAME.."));
    let mut total = Counts::default();
    for name in arguments {
        let counts = compare(&folder, &name)?;
        counts.print(&name);
        total.add(counts);
    }
    total.print("total");
    if with_kinds {
        total.print_kinds();
    }
    Ok(if total.unlisted.is_empty() {
        ExitCode::SUCCESS
    } else {
        ExitCode::FAILURE
    })
}

fn compare(folder: &Path, name: &str) -> io::Result<Counts> {
    let mut counts = Counts::default();
    let mut listing = Listing::new();
    let mut own = Own::default();
    let mut ours = answers(folder, name, "ours")?;
    let mut rust = answers(folder, name, "rust")?;
    for call in calls(folder, name)? {
        let rust = rust.next().transpose()?.unwrap_or_else(|| "(no answer)".to_string());
        let ours = ours.next().transpose()?.unwrap_or_else(|| "(no answer)".to_string());
        let is_sound = own.follow(&call, &ours);
        match listing.expected(&call, &rust) {
            Expected::Anything if is_sound => counts.apart(&call, &ours),
            expected => counts.judge(expected, &call, &rust, &ours),
        }
    }
    for left in ours.chain(rust) {
        counts.differ("(no call)", "", &left?);
    }
    Ok(counts)
}

impl Counts {
    fn count(&mut self, call: &str, ours: &str) {
        self.calls += 1;
        *self.kinds.entry(name(call)).or_default().entry(kind(ours)).or_default() += 1;
    }

    fn apart(&mut self, call: &str, ours: &str) {
        self.count(call, ours);
        self.apart += 1;
    }

    fn judge(&mut self, expected: Expected, call: &str, rust: &str, ours: &str) {
        self.count(call, ours);
        match expected {
            Expected::Same if ours == rust => self.equal += 1,
            Expected::Listed { kind, ours: wanted } if ours == wanted => *self.listed.entry(kind).or_default() += 1,
            Expected::Listed { ours: wanted, .. } => self.differ(call, &format!("{rust} (ours to be: {wanted})"), ours),
            Expected::Same | Expected::Anything => self.differ(call, rust, ours),
        }
    }

    fn differ(&mut self, call: &str, rust: &str, ours: &str) {
        if self.unlisted.values().sum::<u64>() < SHOWN_DIFFERENCES {
            println!("  {}", clipped(call));
            println!("    Rust: {}", clipped(rust));
            println!("    ours: {}", clipped(ours));
        }
        let kind = format!("{}: Rust {}, ours {}", name(call), kind(rust), kind(ours));
        *self.unlisted.entry(kind).or_default() += 1;
    }

    fn add(&mut self, other: Counts) {
        self.calls += other.calls;
        self.equal += other.equal;
        self.apart += other.apart;
        for (kind, count) in other.listed {
            *self.listed.entry(kind).or_default() += count;
        }
        for (kind, count) in other.unlisted {
            *self.unlisted.entry(kind).or_default() += count;
        }
        for (name, kinds) in other.kinds {
            let sums = self.kinds.entry(name).or_default();
            for (kind, count) in kinds {
                *sums.entry(kind).or_default() += count;
            }
        }
    }

    fn print_kinds(&self) {
        println!("by kind of call and of our answer:");
        for (name, kinds) in &self.kinds {
            let sum: u64 = kinds.values().sum();
            let kinds: Vec<String> = kinds.iter().map(|(kind, count)| format!("{kind} {count}")).collect();
            println!("  {name}: {sum} = {}", kinds.join(", "));
        }
    }

    fn print(&self, name: &str) {
        let listed: u64 = self.listed.values().sum();
        let unlisted: u64 = self.unlisted.values().sum();
        println!(
            "{name}: {} calls, {} equal, {listed} listed differences, {unlisted} others",
            self.calls, self.equal
        );
        if self.apart > 0 {
            println!(
                "  apart  {:>8}  read strictly: the Rust has no such reading",
                self.apart
            );
        }
        for (kind, count) in &self.listed {
            println!("  listed {count:>8}  {kind}");
        }
        for (kind, count) in &self.unlisted {
            println!("  OTHER  {count:>8}  {kind}");
        }
    }
}

/// The calls of the format page by their names; every other line is no call.
fn name(call: &str) -> String {
    let name = words(call, if call.starts_with("g ") { 2 } else { 1 });
    let is_name = name.len() <= "g recover".len() && name.chars().all(|c| c.is_ascii_lowercase() || c == ' ');
    if is_name { name } else { "(no call)".to_string() }
}

/// The letter of an answer, the number of a refusal; numbers alone are one kind, but for the two of a test.
fn kind(answer: &str) -> String {
    let kind = words(answer, if answer.starts_with("X ") { 2 } else { 1 });
    let is_number = kind.bytes().all(|byte| byte.is_ascii_digit());
    match kind.parse::<u64>() {
        Ok(n) if is_number && n >= 256 => format!("256+{}", n - 256),
        Ok(n) if is_number && n > 1 => "n".to_string(),
        _ => kind,
    }
}

fn words(text: &str, count: usize) -> String {
    text.split(' ').take(count).collect::<Vec<&str>>().join(" ")
}

fn clipped(text: &str) -> String {
    text.chars().take(SHOWN_WIDTH).collect()
}
