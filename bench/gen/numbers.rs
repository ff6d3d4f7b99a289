//! Calls of the number routines.

use crate::prng::Prng;
use crate::script::Script;
use oracle::fields::hex;
use std::io;
use std::path::Path;

/// Calls whose answers stand in document 01, in the sources' comments or in RFC 8794.
const NAMED: [&str; 60] = [
    "rv 4001",
    "rv 82",
    "rv 4002",
    "rv 200002",
    "rv 10000002",
    "rv FF",
    "rv 7FFF",
    "rv 01FFFFFFFFFFFFFF",
    "rv 00",
    "rv -",
    "rv 40",
    "wv 126",
    "wv 127",
    "wv 16382",
    "wv 16383",
    "wv 72057594037927934",
    "wv 72057594037927935",
    "wv 72057594037927936",
    "wvw 127 1",
    "wvw 128 1",
    "wvw 72057594037927935 8",
    "wvw 72057594037927936 8",
    "wvw 72057594037927936 9",
    "wvw 1 0",
    "ws -33",
    "ws 200",
    "ws -200",
    "ws -1",
    "ws -64",
    "ws -65",
    "ws 63",
    "ws 64",
    "ws -36028797018963968",
    "ws -36028797018963967",
    "ws 36028797018963967",
    "ws 36028797018963968",
    "wsw -64 1",
    "wsw -63 1",
    "wsw -36028797018963968 8",
    "wsw -36028797018963967 8",
    "wsw 36028797018963968 9",
    "rs DF",
    "rs 40C8",
    "rs 7F38",
    "rs FF",
    "rs C0",
    "rs 0100000000000000",
    "rs 017FFFFFFFFFFFFF",
    "rs 0180000000000000",
    "rs 01FFFFFFFFFFFFFF",
    "iv 0",
    "iv 1",
    "iv 9223372036854775808",
    "au 1000",
    "ai 0400",
    "au -",
    "ai -",
    "af 3F800000",
    "afb 7F800001",
    "af 00000001",
];

const WIDTHS: std::ops::RangeInclusive<u64> = 0..=9;
const HUGE_WIDTHS: [u64; 10] = [
    63,
    64,
    255,
    256,
    257,
    264,
    (1 << 32) + 1,
    (1 << 56) + 8,
    1 << 63,
    u64::MAX,
];
const RANDOM_CALLS: usize = 6_000;

pub fn generate(folder: &Path, seed: u64) -> io::Result<()> {
    let mut prng = Prng::new(seed);
    write(folder, "numbers-named", NAMED.map(str::to_string))?;
    write(folder, "numbers-short", short())?;
    write(folder, "numbers-limits", limits(&mut prng))?;
    write(folder, "numbers-random", random(&mut prng))?;
    write(folder, "numbers-floats", floats(&mut prng))?;
    write(folder, "numbers-gateway", gateway(&mut prng))
}

fn write(folder: &Path, name: &str, calls: impl IntoIterator<Item = String>) -> io::Result<()> {
    let mut script = Script::create(folder, name)?;
    script.lines(calls)?;
    script.finish()
}

/// Every input of up to two bytes, the length page whole, and every ID of up to two bytes.
fn short() -> impl Iterator<Item = String> {
    ["rv", "rs", "au", "ai"]
        .into_iter()
        .flat_map(|name| short_inputs().map(move |input| read(name, &input)))
        .chain((0..=u8::MAX).map(|first| format!("vl {first}")))
        .chain((0..=u16::MAX).map(|id| format!("idf {id:X}")))
}

fn short_inputs() -> impl Iterator<Item = Vec<u8>> {
    let single = (0..=u8::MAX).map(|byte| vec![byte]);
    let double = (0..=u16::MAX).map(|pair| pair.to_be_bytes().to_vec());
    std::iter::once(Vec::new()).chain(single).chain(double)
}

fn limits(prng: &mut Prng) -> Vec<String> {
    let mut calls = Vec::new();
    calls.extend(unsigned_limits().into_iter().flat_map(unsigned_writes));
    calls.extend(signed_limits().into_iter().flat_map(signed_writes));
    calls.extend(vint_inputs(prng).iter().flat_map(|input| both("rv", "rs", input)));
    calls.extend(payloads(prng).iter().flat_map(|input| both("au", "ai", input)));
    calls.extend(id_limits().iter().map(|id| format!("idf {id:X}")));
    calls
}

/// 0, the greatest number and the neighbours of every power of two.
fn unsigned_limits() -> Vec<u64> {
    let around = |power: u64| (0..=4).map(move |step| power.wrapping_add(step).wrapping_sub(2));
    let mut values: Vec<u64> = (0..64).flat_map(|exponent| around(1 << exponent)).collect();
    values.extend([0, u64::MAX - 1, u64::MAX]);
    values.sort_unstable();
    values.dedup();
    values
}

fn signed_limits() -> Vec<i64> {
    let mut values: Vec<i64> = unsigned_limits()
        .into_iter()
        .flat_map(|value| [value as i64, (value as i64).wrapping_neg()])
        .collect();
    values.sort_unstable();
    values.dedup();
    values
}

fn unsigned_writes(value: u64) -> Vec<String> {
    let mut calls = vec![format!("wv {value}"), format!("iv {value}")];
    calls.extend(widths().map(|width| format!("wvw {value} {width}")));
    calls
}

fn signed_writes(value: i64) -> Vec<String> {
    let mut calls = vec![format!("ws {value}")];
    calls.extend(widths().map(|width| format!("wsw {value} {width}")));
    calls
}

fn widths() -> impl Iterator<Item = u64> {
    WIDTHS.chain(HUGE_WIDTHS)
}

/// Vints of every length with data at the limits: whole, cut at every place, and with bytes after them.
fn vint_inputs(prng: &mut Prng) -> Vec<Vec<u8>> {
    let mut inputs = Vec::new();
    for length in 1..=8 {
        for data in limits_below(7 * length) {
            let vint = vint(length, data);
            inputs.extend(
                (0..length)
                    .map(|cut| vint[..cut].to_vec())
                    .filter(|_| prng.below(8) == 0),
            );
            inputs.push(vint.clone());
            inputs.push([vint, prng.bytes(2)].concat());
        }
    }
    for length in 1..=10 {
        inputs.push(vec![0; length]);
        inputs.push([vec![0], vec![0xFF; length - 1]].concat());
    }
    inputs
}

/// The limits themselves, and each with the marker of every length that has room for it.
fn id_limits() -> Vec<u64> {
    let marked = (1..=8).flat_map(|length| limits_below(7 * length).map(move |data| data | 1 << (7 * length)));
    let mut ids: Vec<u64> = unsigned_limits().into_iter().chain(marked).collect();
    ids.sort_unstable();
    ids.dedup();
    ids
}

fn limits_below(bits: usize) -> impl Iterator<Item = u64> {
    unsigned_limits().into_iter().filter(move |value| value >> bits == 0)
}

fn vint(length: usize, data: u64) -> Vec<u8> {
    let marked = data | 1 << (7 * length);
    marked.to_be_bytes()[8 - length..].to_vec()
}

/// Integer payloads of 0 to 10 bytes at the limits.
fn payloads(prng: &mut Prng) -> Vec<Vec<u8>> {
    let mut inputs = vec![Vec::new()];
    for value in unsigned_limits() {
        for length in 1..=8 {
            inputs.push(value.to_be_bytes()[8 - length..].to_vec());
        }
        let spare = prng.pick(&[1, 2]);
        let filler = prng.pick(&[0x00, 0xFF]);
        inputs.push([vec![filler; spare], value.to_be_bytes().to_vec()].concat());
    }
    inputs.sort_unstable();
    inputs.dedup();
    inputs
}

fn random(prng: &mut Prng) -> Vec<String> {
    let mut calls = Vec::new();
    for _ in 0..RANDOM_CALLS {
        calls.extend(both("rv", "rs", &random_vint_input(prng)));
        calls.extend(both("au", "ai", &random_bytes(prng)));
        calls.push(random_unsigned_write(prng));
        calls.push(random_signed_write(prng));
        calls.push(format!("iv {}", prng.of_any_magnitude()));
    }
    calls.extend((0..RANDOM_CALLS).map(|_| format!("idf {:X}", prng.of_any_magnitude())));
    calls
}

fn random_bytes(prng: &mut Prng) -> Vec<u8> {
    let length = prng.index(11);
    prng.bytes(length)
}

fn random_vint_input(prng: &mut Prng) -> Vec<u8> {
    let mut input = random_bytes(prng);
    let zeros = prng.below(9) as u32;
    if let Some(first) = input.first_mut() {
        *first = (*first | 0x80).checked_shr(zeros).unwrap_or(0);
    }
    input
}

fn random_unsigned_write(prng: &mut Prng) -> String {
    let value = prng.of_any_magnitude();
    match prng.below(3) {
        0 => format!("wv {value}"),
        _ => format!("wvw {value} {}", prng.below(10)),
    }
}

fn random_signed_write(prng: &mut Prng) -> String {
    let magnitude = (prng.of_any_magnitude() >> 1) as i64;
    let value = if prng.below(2) == 0 { magnitude } else { !magnitude };
    match prng.below(3) {
        0 => format!("ws {value}"),
        _ => format!("wsw {value} {}", prng.below(10)),
    }
}

fn floats(prng: &mut Prng) -> Vec<String> {
    let mut payloads: Vec<Vec<u8>> = (0..=10)
        .flat_map(|length| [vec![0; length], prng.bytes(length)])
        .collect();
    payloads.extend(single_floats(prng).into_iter().map(|bits| bits.to_be_bytes().to_vec()));
    payloads.extend(double_floats(prng).into_iter().map(|bits| bits.to_be_bytes().to_vec()));
    payloads.iter().flat_map(|payload| both("af", "afb", payload)).collect()
}

/// Every sign and exponent with telling fractions: zeros, subnormals, infinities, quiet and signalling NaNs among them.
fn single_floats(prng: &mut Prng) -> Vec<u32> {
    let mut values = Vec::new();
    for head in 0..1 << 9 {
        let chosen = fractions(prng, 23);
        values.extend(chosen.into_iter().map(|fraction| (head << 23) | fraction as u32));
    }
    values
}

fn double_floats(prng: &mut Prng) -> Vec<u64> {
    let mut values = Vec::new();
    for exponent in telling_exponents(prng) {
        for sign in [0, 1] {
            let chosen = fractions(prng, 52);
            values.extend(
                chosen
                    .into_iter()
                    .map(|fraction| (sign << 63) | (exponent << 52) | fraction),
            );
        }
    }
    values
}

fn telling_exponents(prng: &mut Prng) -> Vec<u64> {
    let mut exponents = vec![
        0, 1, 2, 873, 874, 896, 897, 1022, 1023, 1024, 1150, 1151, 2045, 2046, 2047,
    ];
    exponents.extend((0..30).map(|_| prng.below(2048)));
    exponents
}

/// Fractions of so many bits: none, all, each single bit, all bits below one, and some at random.
fn fractions(prng: &mut Prng, bits: u32) -> Vec<u64> {
    let mut values = vec![0, (1 << bits) - 1];
    values.extend((0..bits).flat_map(|bit| [1 << bit, (1 << bit) - 1]));
    values.extend((0..6).map(|_| prng.below(1 << bits)));
    values
}

/// The C form of calls at the limits and of random ones, with lent outputs of 0 to 9 bytes and some longer ones.
fn gateway(prng: &mut Prng) -> Vec<String> {
    let mut calls = every_lent_length(prng);
    let mut inner = limits(prng);
    inner.extend(random(prng));
    inner.extend(
        floats(prng)
            .into_iter()
            .filter(|call| !call.starts_with("afb"))
            .step_by(4),
    );
    for call in inner {
        calls.push(through_gateway(prng, &call));
    }
    calls
}

fn every_lent_length(prng: &mut Prng) -> Vec<String> {
    let mut calls = Vec::new();
    for call in telling_calls(prng) {
        for length in 0..=10 {
            calls.push(format!("g {call} {}", hex(&prng.bytes(length))));
        }
    }
    calls
}

/// For every routine at least one call for each kind and length of answer.
fn telling_calls(prng: &mut Prng) -> Vec<String> {
    let mut calls: Vec<String> = [
        "rv -",
        "rv 00",
        "rs -",
        "rs 00",
        "wv 72057594037927936",
        "ws 36028797018963968",
        "iv 0",
        "iv 1",
        "iv 128",
        "iv 200",
        "au 000000000000000001",
        "ai FFFFFFFFFFFFFFFFFF",
        "af -",
        "af 000000",
        "af 3F800000",
        "af 7F800001",
        "af 3FF0000000000000",
        "af FFF0000000000001",
        "wvw 1 0",
        "wvw 1 9",
        "wvw 72057594037927936 0",
        "wsw 1 0",
        "wsw -1 9",
        "wsw 36028797018963968 9",
    ]
    .map(str::to_string)
    .to_vec();
    for length in 1..=8 {
        let greatest = (1u64 << (7 * length)) - 1;
        let half = 1i64 << (7 * length - 1);
        calls.extend(both("rv", "rs", &vint(length, greatest)));
        calls.extend(both("rv", "rs", &vint(length, prng.next() & greatest)));
        calls.extend(both("rv", "rs", &vint(length, 0)[..length - 1]));
        calls.push(format!("wv {}", greatest - 1));
        calls.push(format!("wv {greatest}"));
        calls.push(format!("wvw {greatest} {length}"));
        calls.push(format!("wvw {} {length}", greatest + 1));
        calls.push(format!("ws {}", half - 1));
        calls.push(format!("ws {}", 1 - half));
        calls.push(format!("ws {}", -half));
        calls.push(format!("wsw {} {length}", 1 - half));
        calls.push(format!("wsw {} {length}", -half));
        calls.extend(both("au", "ai", &prng.bytes(length)));
    }
    calls
}

fn through_gateway(prng: &mut Prng, call: &str) -> String {
    let length = if prng.below(20) == 0 {
        9 + prng.index(24)
    } else {
        prng.index(10)
    };
    let lent = match prng.below(4) {
        0 => vec![0x00; length],
        1 => vec![0xFF; length],
        _ => prng.bytes(length),
    };
    format!("g {call} {}", hex(&lent))
}

fn read(name: &str, input: &[u8]) -> String {
    format!("{name} {}", hex(input))
}

fn both(first: &str, second: &str, input: &[u8]) -> [String; 2] {
    [read(first, input), read(second, input)]
}
