//! Answers that no answer of the Rust stands beside: those after bytes were lent strictly. Of these only is looked at
//! whether each is one that its call can have, and whether the position moves by the bytes taken.

use oracle::fields::bytes;

const REFUSALS: [&str; 16] = [
    "10", "11", "12", "13", "14", "15", "16", "17", "18", "19", "20", "21", "23", "24", "80", "81",
];

/// Goes through our answers to a script.
#[derive(Default)]
pub struct Own {
    position: u64,
}

impl Own {
    /// Whether our answer is one that the call can have.
    pub fn follow(&mut self, call: &str, ours: &str) -> bool {
        let before = self.position;
        let fields: Vec<&str> = call.split(' ').collect();
        match fields[..] {
            ["new"] => self.position = 0,
            ["set", ..] if ours == "ok" => self.position = number(call, "p=").unwrap_or(before),
            _ => self.position = number(ours, "p=").unwrap_or(before),
        }
        match fields[..] {
            ["decode" | "eof", input] => self.has_moved(before, "SEUIDTBRNF", input, ours),
            ["recover", input] => self.has_moved(before, "YQ", input, ours),
            ["st"] => ours.starts_with("st ") && self.position == before,
            _ => ours == "ok" || ours == "BADLINE",
        }
    }

    /// A refusal stays where it is; any other answer is one of the letters, and takes bytes that were lent.
    fn has_moved(&self, before: u64, letters: &str, input: &str, ours: &str) -> bool {
        let words: Vec<&str> = ours.split(' ').collect();
        if let ["X", refusal, _place, ..] = words[..] {
            return self.position == before && REFUSALS.contains(&refusal);
        }
        let lent = bytes(input).map_or(0, |bytes| bytes.len() as u64);
        let is_letter = words[0].len() == 1 && letters.contains(words[0]);
        let moved = number(ours, "t=")
            .filter(|taken| *taken <= lent)
            .map(|taken| before + taken);
        is_letter && moved == Some(self.position)
    }
}

fn number(text: &str, name: &str) -> Option<u64> {
    text.split(' ').find_map(|word| word.strip_prefix(name)?.parse().ok())
}
