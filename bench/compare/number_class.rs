//! The class of a number call: its routine, its input's shape and its answer's shape.

use oracle::fields::{bytes, unsigned};

pub fn class(call: &str, answer: &str) -> String {
    let fields: Vec<&str> = call.split(' ').collect();
    let input = match fields[..] {
        ["g", name, .., lent] => format!("g {name} {}", bytes(lent).map_or(0, |lent| lent.len().min(9))),
        ["wvw", value, width] => wide_shape(value, unsigned(width), 7),
        ["wsw", value, width] => wide_shape(value, unsigned(width), 6),
        ["wv" | "ws", value] => format!("{} {}", value.starts_with('-'), is_near_any_limit(value)),
        ["iv", value] => format!("{} {}", is_near_any_limit(value), value.len() / 2),
        ["vl", _] => String::new(),
        ["idf", id] => id.len().to_string(),
        [name, input] => bytes(input).map_or_else(String::new, |input| bytes_shape(name, &input)),
        _ => String::new(),
    };
    format!("{} {input} {}", fields[0], answer_shape(answer))
}

/// The sign, the width, and the distance from the limit of that width, if it is small. The limits of the widths are
/// 7 powers of two apart; `first` is the exponent of the first.
fn wide_shape(value: &str, width: Option<u64>, first: u64) -> String {
    let width = width.unwrap_or(0).min(10);
    let exponent = (7 * width + first).saturating_sub(7).min(63);
    let distance = i128::from(magnitude(value)) - (1 << exponent);
    format!("{} {width} {}", value.starts_with('-'), distance.clamp(-3, 3))
}

fn is_near_any_limit(value: &str) -> bool {
    let mut limits = (0..64)
        .filter(|exponent| exponent % 7 == 0 || exponent % 7 == 6)
        .map(|exponent| 1 << exponent);
    limits.any(|limit: u64| limit.abs_diff(magnitude(value)) <= 2)
}

fn magnitude(value: &str) -> u64 {
    value.trim_start_matches('-').parse().unwrap_or(0)
}

fn bytes_shape(name: &str, input: &[u8]) -> String {
    let zeros = input.first().map_or(9, |first| first.leading_zeros());
    match name {
        "rv" | "rs" => format!("{} {zeros}", input.len()),
        "af" => format!("{} {}", input.len(), float_shape(input)),
        _ => format!("{} {}", input.len(), zeros.min(2)),
    }
}

fn float_shape(payload: &[u8]) -> String {
    let bits = payload.iter().fold(0, |bits, byte| bits << 8 | u64::from(*byte));
    match payload.len() {
        4 => float_class(bits, 8, 23),
        8 => float_class(bits, 11, 52),
        _ => String::new(),
    }
}

/// The sign, the kind (zero, subnormal, infinity, signalling, quiet, normal), and the order of a subnormal.
fn float_class(bits: u64, exponent_bits: u32, fraction_bits: u32) -> String {
    let sign = bits >> (exponent_bits + fraction_bits);
    let exponent = bits >> fraction_bits & ((1 << exponent_bits) - 1);
    let fraction = bits & ((1 << fraction_bits) - 1);
    let is_quiet = fraction >> (fraction_bits - 1) == 1;
    let kind = match exponent {
        0 if fraction == 0 => "zero".to_string(),
        0 => format!("subnormal {}", fraction.ilog2() / 4),
        _ if exponent + 1 < 1 << exponent_bits => format!("normal {}", exponent >> (exponent_bits - 3)),
        _ if fraction == 0 => "infinity".to_string(),
        _ => format!("NaN {is_quiet}"),
    };
    format!("{sign} {kind}")
}

fn answer_shape(answer: &str) -> String {
    let words: Vec<&str> = answer.split(' ').collect();
    match words[..] {
        ["V", value, length] => format!("V {} {length}", value.starts_with('-')),
        ["V", value] => format!("V {}", value.starts_with('-')),
        ["B", vint] => format!("B {}", vint.len()),
        ["D", _] => "D".to_string(),
        [result, _] if result.parse::<u64>().is_ok() => format!("result {result}"),
        _ => answer.to_string(),
    }
}
