//! What the fuzzer calls: bytes become a session of decoder calls, which the Rust answers here and ours from the script
//! of its calls, once as `replay` does and once by the C calls (from_c.c). Its rows of decode calls are then asked in
//! one piece and cut at other places, by the C calls and as `replay` does. A difference that is not a listed one ends
//! the program, and so does a call that does not return.

mod reading;

use judging::joined::Joined;
use judging::listed::{Expected, Listing};
use oracle::fields::hex;
use oracle::{silence_panics, Oracle};
use reading::{Input, Refused};
use std::sync::Once;

const MOST_CALLS: usize = 100;
const MOST_ENDS: usize = 40;
const MOST_WORDS: usize = 8_192;
const ROOM: usize = 1 << 18;
/// The answers to rows of calls, cut and uncut.
const ROWS_ROOM: usize = 1 << 22;

static SILENCE: Once = Once::new();

extern "C" {
    fn bench_script(
        script: *const u8,
        script_len: usize,
        entries: *mut u64,
        entries_len: usize,
        parts: *mut u64,
        parts_len: usize,
        out: *mut u8,
        out_len: usize,
    ) -> u64;
    fn from_c_script(script: *const u8, script_len: usize, out: *mut u8, out_len: usize) -> usize;
    fn from_c_rows(len: *mut usize) -> *const u8;
}

#[no_mangle]
pub extern "C" fn LLVMFuzzerTestOneInput(data: *const u8, len: usize) -> i32 {
    SILENCE.call_once(silence_panics);
    let data = if len == 0 {
        &[]
    } else {
        unsafe { std::slice::from_raw_parts(data, len) }
    };
    let session = Session::of(data);
    session.compare(&asked_of_ours(&session.calls.join("\n"), ROOM));
    session.compare(&session.asked_from_c());
    session.compare_rows();
    0
}

/// The answers to a script as `replay` gives them.
fn asked_of_ours(script: &str, room: usize) -> Vec<u8> {
    let mut entries = vec![0; MOST_WORDS];
    let mut parts = vec![0; MOST_WORDS];
    let mut out = Vec::with_capacity(room);
    unsafe {
        let filled = bench_script(
            script.as_ptr(),
            script.len(),
            entries.as_mut_ptr(),
            entries.len(),
            parts.as_mut_ptr(),
            parts.len(),
            out.as_mut_ptr(),
            room,
        );
        out.set_len(filled as usize);
    }
    out
}

/// The rows that the C calls kept of the last script, as a script.
fn rows() -> String {
    let mut len = 0;
    let rows = unsafe { from_c_rows(&mut len) };
    if len == 0 {
        return String::new();
    }
    String::from_utf8_lossy(unsafe { std::slice::from_raw_parts(rows, len) }).into_owned()
}

/// The calls and the Rust's answers.
struct Session {
    oracle: Oracle,
    calls: Vec<String>,
    answers: Vec<String>,
}

impl Session {
    fn of(data: &[u8]) -> Session {
        let mut session = Session {
            oracle: Oracle::default(),
            calls: Vec::new(),
            answers: Vec::new(),
        };
        let mut input = Input(data);
        for line in input.settings() {
            session.call(line);
        }
        session.play(input);
        session.call("st".to_string());
        session
    }

    /// The first word of the answer, the driver's own words left out, and the count of bytes taken.
    fn call(&mut self, line: String) -> (String, usize) {
        let answer = self.oracle.answer(line.as_bytes()).expect("a call");
        let mut words = answer.split(' ').skip_while(|word| matches!(*word, "PANIC" | "HANGS" | "LIMIT"));
        let kind = words.next().unwrap_or_default().to_string();
        let taken = words.find_map(|word| word.strip_prefix("t=")?.parse().ok()).unwrap_or(0);
        self.calls.push(line);
        self.answers.push(answer);
        (kind, taken)
    }

    fn lend(&mut self, name: &str, unread: &mut Vec<u8>) -> String {
        let (kind, taken) = self.call(format!("{name} {}", hex(unread)));
        unread.drain(..taken);
        kind
    }

    fn play(&mut self, mut input: Input) {
        let piece = input.piece();
        let refused = input.refused();
        let mut coming = input.0.to_vec();
        let mut unread = Vec::new();
        while self.calls.len() < MOST_CALLS {
            let kind = self.lend("decode", &mut unread);
            match kind.as_str() {
                "N" if coming.is_empty() => break,
                "N" => {
                    let count = piece.min(coming.len());
                    unread.extend(coming.drain(..count));
                }
                "X" | "NOTABLE" if !self.goes_on(refused, &mut unread) => break,
                "F" => break,
                _ => {}
            }
        }
        self.end(unread);
    }

    /// What a caller does after a refusal.
    fn goes_on(&mut self, refused: Refused, unread: &mut Vec<u8>) -> bool {
        self.call("st".to_string());
        match refused {
            Refused::Stop => return false,
            Refused::Recover => {
                if self.lend("recover", unread) == "Y" && !unread.is_empty() {
                    unread.remove(0);
                }
            }
            Refused::Drop => {
                if unread.is_empty() {
                    return false;
                }
                unread.remove(0);
            }
            Refused::Allow => {
                self.call("allow 7".to_string());
                self.call("max -".to_string());
                if !unread.is_empty() {
                    unread.remove(0);
                }
            }
        }
        true
    }

    fn end(&mut self, mut unread: Vec<u8>) {
        for _ in 0..MOST_ENDS {
            match self.lend("eof", &mut unread).as_str() {
                "S" | "E" | "U" | "I" | "D" | "T" | "B" | "R" => {}
                "F" => {
                    self.lend("recover", &mut vec![0xA1, 0x80]);
                    self.lend("decode", &mut vec![0xEC]);
                    return;
                }
                _ if unread.is_empty() => return,
                _ => unread.clear(),
            }
        }
    }

    fn asked_from_c(&self) -> Vec<u8> {
        let script = self.calls.join("\n");
        let mut out = vec![0; ROOM];
        let filled = unsafe { from_c_script(script.as_ptr(), script.len(), out.as_mut_ptr(), out.len()) };
        out.truncate(filled);
        out
    }

    fn compare(&self, ours: &[u8]) {
        let text = String::from_utf8_lossy(ours);
        let mut ours = text.lines();
        let mut listing = Listing::new();
        for (call, rust) in self.calls.iter().zip(&self.answers) {
            let ours = ours.next().unwrap_or("(no answer)");
            let wanted = match listing.expected(call, rust) {
                Expected::Same => rust.clone(),
                Expected::Listed { ours, .. } => ours,
                Expected::Anything => continue,
            };
            if ours != wanted {
                self.differ(call, rust, &wanted, ours);
            }
        }
    }

    /// Whether the rows have the same answers in one piece and in others, behind `asked_from_c`.
    fn compare_rows(&self) {
        let script = rows();
        let answers = String::from_utf8_lossy(&asked_of_ours(&script, ROWS_ROOM)).into_owned();
        let lines = |text: &str| text.lines().map(str::to_string).collect::<Vec<String>>().into_iter();
        let joined = Joined::of(lines(&script), lines(&answers));
        if let Some(fault) = joined.faults.first() {
            self.differ(fault, "", "the same as in one piece", &script);
        }
    }

    fn differ(&self, call: &str, rust: &str, wanted: &str, ours: &str) -> ! {
        eprintln!("DIFFERENCE\n  call:   {call}\n  Rust:   {rust}\n  wanted: {wanted}\n  ours:   {ours}\nthe session:");
        for (call, answer) in self.calls.iter().zip(&self.answers) {
            eprintln!("  {call}\n    {answer}");
        }
        std::process::abort()
    }
}
