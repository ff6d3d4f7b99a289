//! The number calls: tools.rs and, on top of its answers, the gateway's C form.

use crate::fields::{bytes, hex, signed, unsigned, word};
use crate::guard::guarded;
use ebml_iterable::errors::tool::ToolError;
use ebml_iterable::tools::{self, SignedVint, Vint};
use std::panic::UnwindSafe;

pub enum Reply {
    Vint(Number, usize),
    /// How many bytes are missing.
    NeedMore(usize),
    Written(Vec<u8>),
    Flag(bool),
    Value(Number),
    Float(f64),
    Refusal(u64),
    Panic,
}

#[derive(Clone, Copy)]
pub enum Number {
    Unsigned(u64),
    Signed(i64),
}

impl Number {
    fn text(self) -> String {
        match self {
            Number::Unsigned(value) => value.to_string(),
            Number::Signed(value) => value.to_string(),
        }
    }

    fn to_bytes(self) -> [u8; 8] {
        match self {
            Number::Unsigned(value) => value.to_be_bytes(),
            Number::Signed(value) => value.to_be_bytes(),
        }
    }
}

/// The answer line of a number call, or nothing if the fields are no such call.
pub fn answer(fields: &[&str]) -> Option<String> {
    match fields {
        ["g", call @ .., lent] => gateway(reply(call)?, bytes(lent)?),
        ["afb", payload] => Some(text(read_float(&bytes(payload)?), bits)),
        ["idf", id] => Some(is_element_id(word(id)?)),
        ["vl", first] => Some(length_on_page(u8::try_from(unsigned(first)?).ok()?)),
        _ => Some(text(reply(fields)?, bits_or_nan)),
    }
}

fn reply(fields: &[&str]) -> Option<Reply> {
    Some(match fields {
        ["rv", input] => read_vint(&bytes(input)?),
        ["rs", input] => read_signed_vint(&bytes(input)?),
        ["wv", value] => as_vint(unsigned(value)?),
        ["wvw", value, width] => as_vint_with_length(unsigned(value)?, unsigned(width)?),
        ["ws", value] => as_signed_vint(signed(value)?),
        ["wsw", value, width] => as_signed_vint_with_length(signed(value)?, unsigned(width)?),
        ["iv", value] => is_vint(unsigned(value)?),
        ["au", payload] => read_unsigned(&bytes(payload)?),
        ["ai", payload] => read_signed(&bytes(payload)?),
        ["af", payload] => read_float(&bytes(payload)?),
        _ => return None,
    })
}

fn read_vint(input: &[u8]) -> Reply {
    asked(|| {
        Ok(match tools::read_vint(input)? {
            Some((value, length)) => Reply::Vint(Number::Unsigned(value), length),
            None => Reply::NeedMore(missing_of_vint(input)),
        })
    })
}

/// How many bytes must be appended until the Rust asks for no more; the first of them, where there is none, begins a
/// vint of one byte.
pub fn missing_of_vint(input: &[u8]) -> usize {
    let asks = |count: &usize| matches!(tools::read_vint(&[input, &vec![0x80; *count][..]].concat()), Ok(None));
    (0..).find(|count| !asks(count)).unwrap_or_default()
}

/// The length that the Rust reads after this first byte; the page has 0 where it reads no vint.
fn length_on_page(first: u8) -> String {
    match read_vint(&[first, 0, 0, 0, 0, 0, 0, 0]) {
        Reply::Vint(_, length) => length.to_string(),
        Reply::Refusal(1) => "0".to_string(),
        other => text(other, bits),
    }
}

/// Whether an ID's bytes are what the Rust reads as one vint and writes again, its data neither all 0 nor all 1.
fn is_element_id(id: u64) -> String {
    let all = id.to_be_bytes();
    let octets = &all[all.iter().take_while(|byte| **byte == 0).count()..];
    let form = match (octets, read_vint(octets)) {
        ([], _) => false,
        (_, Reply::Vint(Number::Unsigned(value), length)) => {
            length == octets.len()
                && value != 0
                && value != (1 << (7 * length)) - 1
                && matches!(as_vint(value), Reply::Written(written) if written == octets)
        }
        _ => false,
    };
    u8::from(form).to_string()
}

fn read_signed_vint(input: &[u8]) -> Reply {
    asked(|| {
        Ok(match tools::read_signed_vint(input)? {
            Some((value, length)) => Reply::Vint(Number::Signed(value), length),
            None => Reply::NeedMore(missing_of_vint(input)),
        })
    })
}

fn as_vint(value: u64) -> Reply {
    asked(|| Ok(Reply::Written(value.as_vint()?)))
}

fn as_vint_with_length(value: u64, width: u64) -> Reply {
    asked(|| {
        Ok(Reply::Written(match width {
            1 => value.as_vint_with_length::<1>()?.to_vec(),
            2 => value.as_vint_with_length::<2>()?.to_vec(),
            3 => value.as_vint_with_length::<3>()?.to_vec(),
            4 => value.as_vint_with_length::<4>()?.to_vec(),
            5 => value.as_vint_with_length::<5>()?.to_vec(),
            6 => value.as_vint_with_length::<6>()?.to_vec(),
            7 => value.as_vint_with_length::<7>()?.to_vec(),
            8 => value.as_vint_with_length::<8>()?.to_vec(),
            _ => return Ok(Reply::Refusal(4)),
        }))
    })
}

fn as_signed_vint(value: i64) -> Reply {
    asked(|| Ok(Reply::Written(value.as_signed_vint()?)))
}

fn as_signed_vint_with_length(value: i64, width: u64) -> Reply {
    asked(|| match width {
        1..=8 => Ok(Reply::Written(value.as_signed_vint_with_length(width as usize)?)),
        _ => Ok(Reply::Refusal(4)),
    })
}

fn is_vint(value: u64) -> Reply {
    asked(|| Ok(Reply::Flag(tools::is_vint(value))))
}

fn read_unsigned(payload: &[u8]) -> Reply {
    asked(|| Ok(Reply::Value(Number::Unsigned(tools::arr_to_u64(payload)?))))
}

fn read_signed(payload: &[u8]) -> Reply {
    asked(|| Ok(Reply::Value(Number::Signed(tools::arr_to_i64(payload)?))))
}

fn read_float(payload: &[u8]) -> Reply {
    asked(|| Ok(Reply::Float(tools::arr_to_f64(payload)?)))
}

fn asked(call: impl FnOnce() -> Result<Reply, ToolError> + UnwindSafe) -> Reply {
    match guarded(call) {
        Some(Ok(reply)) => reply,
        Some(Err(error)) => Reply::Refusal(refusal(&error)),
        None => Reply::Panic,
    }
}

fn refusal(error: &ToolError) -> u64 {
    match error {
        ToolError::ReadVintOverflow => 1,
        ToolError::WriteVintOverflow(_) => 2,
        ToolError::WriteSignedVintOverflow(_) => 3,
        ToolError::ReadU64Overflow(_) | ToolError::ReadI64Overflow(_) => 6,
        ToolError::ReadF64Mismatch(_) => 7,
        ToolError::FromUtf8Error(..) => 20,
    }
}

fn text(reply: Reply, float: impl Fn(f64) -> String) -> String {
    match reply {
        Reply::Vint(value, length) => format!("V {} {length}", value.text()),
        Reply::NeedMore(missing) => format!("N need={missing}"),
        Reply::Written(vint) => format!("B {}", hex(&vint)),
        Reply::Flag(flag) => u8::from(flag).to_string(),
        Reply::Value(value) => format!("V {}", value.text()),
        Reply::Float(value) => format!("D {}", float(value)),
        Reply::Refusal(number) => format!("X {number}"),
        Reply::Panic => "PANIC".to_string(),
    }
}

pub fn bits_or_nan(value: f64) -> String {
    if value.is_nan() {
        "NaN".to_string()
    } else {
        bits(value)
    }
}

fn bits(value: f64) -> String {
    hex(&value.to_bits().to_be_bytes())
}

fn gateway(reply: Reply, mut lent: Vec<u8>) -> Option<String> {
    let result = match reply {
        Reply::Vint(value, length) => write(&mut lent, &value.to_bytes(), length as u64),
        Reply::NeedMore(missing) => 512 + missing as u64,
        Reply::Written(vint) => write(&mut lent, &vint, vint.len() as u64),
        Reply::Flag(flag) => u64::from(flag),
        Reply::Value(value) => write(&mut lent, &value.to_bytes(), 8),
        Reply::Float(value) => write(&mut lent, &value.to_bits().to_be_bytes(), 8),
        Reply::Refusal(number) => 256 + number,
        Reply::Panic => return Some("PANIC".to_string()),
    };
    Some(format!("{result} {}", hex(&lent)))
}

fn write(lent: &mut [u8], output: &[u8], result: u64) -> u64 {
    match lent.get_mut(..output.len()) {
        Some(place) => {
            place.copy_from_slice(output);
            result
        }
        None => 256 + 5,
    }
}
