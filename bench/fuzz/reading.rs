//! How the fuzzer's bytes are read: a table, the settings, how the stream comes and what happens after a refusal; all
//! that is left is the stream.

const DOCUMENT: &str = "table 4E01,0,0,0,A1,0,0,1,A2,1,0,2,A3,3,0,2,A4,4,0,2,A5,2,0,2,A6,5,0,2,EC,4,2,1 0,4E01,0,0,A1,0,1,0,0";
const IDS: [u64; 16] = [
    0x4E01, 0xA1, 0xA2, 0xA3, 0xA4, 0xA5, 0xA6, 0xEC, 0x81, 0x82, 0x83, 0x80, 0x4001, 0x40, 0, 1,
];
const SIZES: [u64; 8] = [0, 1, 2, 9, 100, 1 << 32, 1 << 56, (1 << 56) + 1];
const POSITIONS: [u64; 8] = [0, 1, 3, 12, 1 << 20, (1 << 62) - 20, 1 << 62, (1 << 62) + 1];
const COUNTS: [u64; 8] = [0, 0, 0, 1, 3, 12, 1 << 62, (1 << 62) + 1];
const GREATEST: [&str; 8] = ["-", "0", "1", "5", "20", "4000000000", "72057594037927936", "18446744073709551615"];

#[derive(Clone, Copy)]
pub enum Refused {
    Stop,
    Recover,
    Drop,
    Allow,
}

pub struct Input<'a>(pub &'a [u8]);

impl Input<'_> {
    fn next(&mut self) -> u8 {
        let Some((first, rest)) = self.0.split_first() else {
            return 0;
        };
        self.0 = rest;
        *first
    }

    fn pick<T: Copy>(&mut self, items: &[T]) -> T {
        items[usize::from(self.next()) % items.len()]
    }

    /// The calls before the stream.
    pub fn settings(&mut self) -> Vec<String> {
        let which = self.next();
        let mut lines = vec![if which < 0xC0 { DOCUMENT.to_string() } else { self.table(which % 8) }];
        if which & 1 != 0 {
            lines.push(format!("allow {}", self.next() % 8));
        }
        if which & 2 != 0 {
            lines.push(format!("max {}", self.pick(&GREATEST)));
        }
        if which & 4 != 0 {
            lines.push(self.record());
        }
        lines
    }

    fn table(&mut self, count: u8) -> String {
        let mut entries = Vec::new();
        let mut parts = Vec::new();
        for _ in 0..=count {
            let (id, kind, length) = (self.pick(&IDS), self.next() % 6, self.next() % 4);
            entries.push(format!("{id:X},{kind},{:X},{length}", parts.len()));
            for _ in 0..length {
                parts.push(self.part());
            }
        }
        let parts = if parts.is_empty() { "-".to_string() } else { parts.join(",") };
        format!("table {} {parts}", entries.join(","))
    }

    fn part(&mut self) -> String {
        let byte = self.next();
        if byte < 0xC0 {
            return format!("0,{:X},0", IDS[usize::from(byte) % IDS.len()]);
        }
        let bounds = self.next();
        format!("1,{},{}", bounds % 5, bounds / 5 % 5)
    }

    /// Any record, at and over the limits of the state.
    fn record(&mut self) -> String {
        let flags = self.next();
        let position = self.pick(&POSITIONS);
        let open: Vec<String> = (0..self.next() % 5).map(|_| self.open()).collect();
        let waiting: Vec<String> = (0..self.next() % 3)
            .map(|_| format!("{:X}:{}", self.pick(&IDS), self.pick(&POSITIONS)))
            .collect();
        let mut counts = |items: &[String]| {
            let counts: Vec<String> = items.iter().map(|_| self.pick(&COUNTS).to_string()).collect();
            listed(&counts)
        };
        let (open_counts, waiting_counts) = (counts(&open), counts(&waiting));
        format!(
            "set p={position} s={} f={} O={} W={} C={open_counts} V={waiting_counts}",
            flags & 1,
            u8::from(flags & 0x0E == 0x0E),
            listed(&open),
            listed(&waiting)
        )
    }

    fn open(&mut self) -> String {
        let id = self.pick(&IDS);
        let byte = self.next();
        let size = if byte < 0x80 { "u".to_string() } else { SIZES[usize::from(byte) % 8].to_string() };
        format!("{id:X}:{size}:{}:{}", self.pick(&POSITIONS), self.pick(&POSITIONS))
    }

    /// How many bytes come at a time.
    pub fn piece(&mut self) -> usize {
        self.pick(&[usize::MAX, 1, 3, 16])
    }

    pub fn refused(&mut self) -> Refused {
        self.pick(&[Refused::Stop, Refused::Recover, Refused::Drop, Refused::Allow])
    }
}

fn listed(items: &[String]) -> String {
    if items.is_empty() {
        return "-".to_string();
    }
    items.join(",")
}
