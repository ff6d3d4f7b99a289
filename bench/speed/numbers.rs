//! The number routines alone: ours as C calls them, the Rust's as Rust calls them.

use crate::clock::{measure, Patience};
use crate::ours;
use ebml_iterable::tools::{self, SignedVint, Vint};
use std::hint::black_box;

const COUNT: usize = 1_000;

pub fn report(patience: Patience) {
    println!("\n## Number routines, ns a call\n");
    println!("| routine | ours | the Rust | ours / Rust |\n|---|---|---|---|");
    let numbers: Vec<u64> = (0..COUNT).map(number).collect();
    let vints: Vec<Vec<u8>> = numbers.iter().map(|n| n.as_vint().expect("below 2^56")).collect();
    let signed: Vec<i64> = numbers.iter().map(|n| (*n >> 10) as i64 * if n & 1 == 0 { 1 } else { -1 }).collect();
    let signed_vints: Vec<Vec<u8>> = signed.iter().map(|v| v.as_signed_vint().expect("below 2^55")).collect();
    let payloads: Vec<Vec<u8>> = numbers.iter().map(|n| n.to_be_bytes()[n.leading_zeros() as usize / 8..].to_vec()).collect();
    let floats: Vec<Vec<u8>> = numbers.iter().map(|n| float(*n)).collect();

    row("read_vint", patience, &vints, |b| ours::read_vint(b), |b| rust_vint(b));
    row("read_signed_vint", patience, &signed_vints, |b| ours::read_signed_vint(b), |b| rust_signed(b));
    row("as_vint", patience, &numbers, |n| ours::as_vint(*n), |n| written(n.as_vint()));
    row("as_signed_vint", patience, &signed, |v| ours::as_signed_vint(*v), |v| written(v.as_signed_vint()));
    row("is_vint", patience, &numbers, |n| ours::is_vint(*n), |n| tools::is_vint(*n));
    row("arr_to_u64", patience, &payloads, |b| ours::arr_to_u64(b), |b| (8, tools::arr_to_u64(b).expect("8 bytes")));
    row("arr_to_i64", patience, &payloads, |b| ours::arr_to_i64(b), |b| (8, tools::arr_to_i64(b).expect("8 bytes") as u64));
    row("arr_to_f64", patience, &floats, |b| ours::arr_to_f64(b), |b| (8, tools::arr_to_f64(b).expect("4 or 8").to_bits()));
}

/// Every count of bits up to 55 comes up.
fn number(i: usize) -> u64 {
    (i as u64).wrapping_mul(0x9E37_79B9_7F4A_7C15) >> (9 + i % 55)
}

fn float(n: u64) -> Vec<u8> {
    if n % 2 == 0 {
        (n as f32).to_be_bytes().to_vec()
    } else {
        (n as f64).to_be_bytes().to_vec()
    }
}

fn rust_vint(bytes: &[u8]) -> (u64, u64) {
    let (value, length) = tools::read_vint(bytes).expect("a vint").expect("whole");
    (length as u64, value)
}

/// The Rust's 8-byte vint is not asked for here: without overflow checks it answers 2^56 too much.
fn rust_signed(bytes: &[u8]) -> (u64, u64) {
    let (value, length) = tools::read_signed_vint(bytes).expect("a vint").expect("whole");
    (length as u64, value as u64)
}

fn written<E: std::fmt::Debug>(vint: Result<Vec<u8>, E>) -> (u64, [u8; 8]) {
    let vint = vint.expect("within the limits");
    let mut bytes = [0; 8];
    bytes[..vint.len()].copy_from_slice(&vint);
    (vint.len() as u64, bytes)
}

fn row<I, A: PartialEq + std::fmt::Debug>(
    name: &str,
    patience: Patience,
    inputs: &[I],
    ours: impl Fn(&I) -> A,
    rust: impl Fn(&I) -> A,
) {
    for input in inputs {
        assert_eq!(ours(input), rust(input), "{name}");
    }
    let times = measure(
        patience,
        || inputs.iter().for_each(|input| drop(black_box(ours(black_box(input))))),
        || (),
        |()| inputs.iter().for_each(|input| drop(black_box(rust(black_box(input))))),
    );
    let each = 1e9 / inputs.len() as f64;
    println!(
        "| `{name}` | {:.1} | {:.1} | {:.2} |",
        times.ours * each,
        times.rust * each,
        times.ours / times.rust
    );
}
