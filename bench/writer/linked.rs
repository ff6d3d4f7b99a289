//! Usage: linked LISTS SEED
//! The same comparison with the C call `ebml_write`, linked: lists of any length of values, so that sizes reach the
//! limits of 2 and 3 bytes; items of no kind and words left over; and masters around the greatest size of all. The
//! result is 1 if there is a difference.

use parts::judge::Judge;
use parts::lists::{mark, Case, Room};
use parts::model::{Item, END, START};
use parts::prng::Prng;
use parts::table::{of_document, Words, BINARY};
use parts::turns::{turn, Told};
use parts::values::LARGE_LIMITS;
use std::process::ExitCode;

const ROOM: Room = Room { values: 40_000, limits: &LARGE_LIMITS };
const REFUSED: u64 = 256;
const GREATEST_SIZE: u64 = 4_000_000_000;
const PIECE: u64 = 1 << 24;
const HEADER: u64 = 5;

extern "C" {
    fn ebml_write(
        entries: *const u64,
        entries_len: usize,
        parts: *const u64,
        parts_len: usize,
        items: *const u64,
        items_len: usize,
        values: *const u8,
        values_len: usize,
        out: *mut u8,
        out_len: usize,
        written: *mut u8,
        written_len: usize,
    ) -> u64;
}

/// What the C call answers, and the output after it.
fn write(table: &Words, case: &Case) -> (Result<u64, u64>, Vec<u8>) {
    let mut items: Vec<u64> = case.items.iter().flat_map(|item| [item.kind, item.id, item.offset, item.length]).collect();
    items.extend(vec![0; case.words_over]);
    let mut out = case.out.clone();
    let mut written = [0; 8];
    let result = unsafe {
        ebml_write(
            table.entries.as_ptr(),
            table.entries.len(),
            table.parts.as_ptr(),
            table.parts.len(),
            items.as_ptr(),
            items.len(),
            case.values.as_ptr(),
            case.values.len(),
            out.as_mut_ptr(),
            out.len(),
            written.as_mut_ptr(),
            written.len(),
        )
    };
    let answer = match result {
        8 => Ok(u64::from_be_bytes(written)),
        _ => Err(result.wrapping_sub(REFUSED)),
    };
    (answer, out)
}

/// Random lists.
fn random(lists: u64, seed: u64) -> Judge {
    let mut prng = Prng::new(seed);
    let mut judge = Judge::default();
    while judge.lists < lists {
        let turn = turn(&mut prng, ROOM);
        let words = &turn.lent.words;
        oracle::table::lend(&words.entries, &words.parts);
        for told in &turn.lists {
            let (answer, after) = write(words, &told.case);
            judge.judge(turn.lent.passed.as_ref(), told, (answer, &after));
        }
    }
    judge
}

/// Masters of 4,000,000,000 bytes and some fewer or more, their data the same 16 MiB again and again. The output is
/// short, so what is not refused as too large is refused by 44.
fn greatest(seed: u64) -> Judge {
    let mut prng = Prng::new(seed);
    let table = of_document();
    let words = table.words(&mut prng);
    let values = vec![0; PIECE as usize];
    let mut judge = Judge::default();
    for size in GREATEST_SIZE - 16..GREATEST_SIZE + 8 {
        let case = Case { items: feed_of(size), values: values.clone(), out: prng.bytes(64), words_over: 0 };
        let told = Told { case, name: "4,000,000,000 and some", refusal: None };
        let (answer, after) = write(&words, &told.case);
        judge.judge(Some(&table), &told, (answer, &after));
    }
    judge
}

/// A feed in a session: binaries of 16 MiB and a rest, each with a header of 5 bytes, this size together.
fn feed_of(size: u64) -> Vec<Item> {
    let blob = |length: u64| Item { kind: BINARY, id: 0xA4, offset: 0, length };
    let whole = PIECE + HEADER;
    let mut items = vec![mark(START, 0x4E01), mark(START, 0xA1)];
    items.extend((0..size / whole).map(|_| blob(PIECE)));
    items.extend([blob(size % whole - HEADER), mark(END, 0xA1), mark(END, 0x4E01)]);
    items
}

fn main() -> ExitCode {
    let arguments: Vec<u64> = std::env::args().skip(1).map(|word| word.parse().expect("a number")).collect();
    let [lists, seed] = arguments[..] else { panic!("usage: linked LISTS SEED") };
    let (random, greatest) = (random(lists, seed), greatest(seed));
    random.report("linked");
    greatest.report("around the greatest size");
    ExitCode::from(u8::from(random.differences + greatest.differences > 0))
}
