//! The listed differences: where the Rust's answer is not the one that ours must give.

use crate::table::Table;
use oracle::fields::{bytes, hex, list, word};

pub const SIGNED_VINT_PANIC: &str = "signed vint of 8 bytes, not negative: the Rust panics";
pub const NAN_BITS: &str = "NaN with other bits";
pub const CHECK: &str = "the table check: the Rust has none, document 01 decides";
pub const TABLE_SHAPE: &str = "table of bad shape: the Rust has no such table";
pub const AFTER_THE_FINISH: &str = "13, bytes after the finish: the Rust panics";
pub const TABLE_FAULT: &str = "24, closing what is no Master: the Rust panics";
pub const STATE: &str = "11, state: the Rust has no such limit";
pub const LENGTH: &str = "12, position and length: the Rust has no such limit";
pub const DEPTH: &str = "19, a 33rd master: the Rust has no such limit";
pub const HANGS: &str = "recovery past a header that fails: the Rust never returns";

pub const STRICT: &str = "sended and spath: the Rust has no strict reading, document 02 decides";

pub enum Expected {
    Same,
    /// Nothing: the session was read strictly.
    Anything,
    Listed {
        kind: &'static str,
        ours: String,
    },
}

/// Goes through a script call by call.
pub struct Listing {
    table: Option<Table>,
    position: u64,
}

impl Listing {
    pub fn new() -> Self {
        Listing {
            table: Some(Table::default()),
            position: 0,
        }
    }

    /// What ours must answer to a call that the Rust answered so.
    pub fn expected(&mut self, call: &str, rust: &str) -> Expected {
        let fields: Vec<&str> = call.split(' ').collect();
        self.follow(&fields, rust);
        self.listed(&fields, rust).unwrap_or(Expected::Same)
    }

    /// The table that is lent, if its shape is good.
    pub fn table(&self) -> Option<&Table> {
        self.table.as_ref()
    }

    fn follow(&mut self, fields: &[&str], rust: &str) {
        match fields {
            ["table", entries, parts] if rust == "ok" => self.table = Table::read(entries, parts),
            ["table", ..] if rust == "X 10" => self.table = None,
            ["new"] => self.position = 0,
            ["set", settings @ ..] if rust == "ok" => self.move_to(settings),
            ["decode" | "eof" | "recover", _] => self.move_to(&rust.split(' ').collect::<Vec<&str>>()),
            _ => {}
        }
    }

    fn move_to(&mut self, words: &[&str]) {
        let position = words.iter().find_map(|word| word.strip_prefix("p=")?.parse().ok());
        self.position = position.unwrap_or(self.position);
    }

    fn listed(&self, fields: &[&str], rust: &str) -> Option<Expected> {
        match (fields, rust) {
            (["rs", input], "PANIC") => panic_of(input, |value| format!("V {value} 8")),
            (["g", "rs", input, lent], "PANIC") => panic_of(input, |value| written(value, lent)),
            (["afb", payload], _) => nan(payload, rust.strip_prefix("D ")?, |bits| format!("D {bits:016X}")),
            (["g", "af", payload, lent], _) => {
                nan(payload, rust.strip_prefix("8 ")?.get(..16)?, |bits| written(bits, lent))
            }
            (["check"], "NOCHECK") => Some(listed(CHECK, self.check())),
            (["sended", master, id], "NOSTRICT") => {
                let is_ended = self.table()?.is_ended_strictly(word(master)?, word(id)?);
                Some(listed(STRICT, u8::from(is_ended).to_string()))
            }
            (["spath", id, stack], "NOSTRICT") => {
                let does_fit = self.table()?.fits_strictly(word(id)?, &list(stack, open_master)?);
                Some(listed(STRICT, u8::from(does_fit).to_string()))
            }
            (_, _) if rust.starts_with("NOSTRICT ") => Some(Expected::Anything),
            (["ended" | "path" | "sended" | "spath", ..], "NOTABLE") => Some(listed(TABLE_SHAPE, "X 10".to_string())),
            (["decode" | "eof" | "recover", _], "NOTABLE") => {
                Some(listed(TABLE_SHAPE, format!("X 10 {}", self.position)))
            }
            (["decode" | "eof" | "recover", _], _) => marked(rust),
            _ => None,
        }
    }

    fn check(&self) -> String {
        self.table.as_ref().map_or_else(|| "X 10".to_string(), Table::check)
    }
}

/// The ID of an open master, and whether its size is Unknown.
fn open_master(item: &str) -> Option<(u64, bool)> {
    let (id, size) = item.split_once(':')?;
    Some((word(id)?, size == "u"))
}

fn listed(kind: &'static str, ours: String) -> Expected {
    Expected::Listed { kind, ours }
}

/// An answer of the Rust's driver that tells what ours must say.
fn marked(rust: &str) -> Option<Expected> {
    let words: Vec<&str> = rust.split(' ').collect();
    let kind = match words[..] {
        ["PANIC", "X", "13", _] => AFTER_THE_FINISH,
        ["PANIC", "X", "24", _] => TABLE_FAULT,
        ["LIMIT", "X", "11", _] => STATE,
        ["LIMIT", "X", "12", _] => LENGTH,
        ["LIMIT", "X", "19", _] => DEPTH,
        ["HANGS", "Y" | "Q", _, _, _] => HANGS,
        _ => return None,
    };
    Some(listed(kind, words[1..].join(" ")))
}

fn panic_of(input: &str, ours: impl Fn(u64) -> String) -> Option<Expected> {
    let value = eight_byte_value(&bytes(input)?)?;
    let is_negative = value >> 55 == 1;
    (!is_negative).then(|| listed(SIGNED_VINT_PANIC, ours(value)))
}

/// The 56 bits of a vint of 8 bytes.
fn eight_byte_value(input: &[u8]) -> Option<u64> {
    let vint: [u8; 8] = input.get(..8)?.try_into().ok()?;
    (vint[0] == 1).then(|| u64::from_be_bytes(vint) - (1 << 56))
}

fn nan(payload: &str, rust: &str, ours: impl Fn(u64) -> String) -> Option<Expected> {
    let rust = u64::from_str_radix(rust, 16).ok()?;
    let bits = nan_bits(&bytes(payload)?)?;
    (is_nan(rust) && bits != rust).then(|| listed(NAN_BITS, ours(bits)))
}

/// The bits of a NaN: a wide one as it is; a narrow one keeps sign and fraction, and its quiet bit is set.
fn nan_bits(payload: &[u8]) -> Option<u64> {
    let bits = match *payload {
        [a, b, c, d] => widened(u64::from(u32::from_be_bytes([a, b, c, d]))),
        _ => u64::from_be_bytes(payload.try_into().ok()?),
    };
    is_nan(bits).then_some(bits)
}

fn widened(narrow: u64) -> u64 {
    let sign = narrow >> 31;
    let exponent = (narrow >> 23) & 0xFF;
    let fraction = narrow & 0x7F_FFFF;
    if exponent != 0xFF || fraction == 0 {
        return 0;
    }
    (sign << 63) | (0x7FF << 52) | (1 << 51) | (fraction << 29)
}

fn is_nan(bits: u64) -> bool {
    f64::from_bits(bits).is_nan()
}

/// The gateway's answer to 8 bytes written over the lent output.
fn written(value: u64, lent: &str) -> String {
    let mut output = bytes(lent).unwrap_or_default();
    match output.get_mut(..8) {
        Some(place) => {
            place.copy_from_slice(&value.to_be_bytes());
            format!("8 {}", hex(&output))
        }
        None => format!("{} {lent}", 256 + 5),
    }
}
