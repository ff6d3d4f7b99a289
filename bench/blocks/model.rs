//! A decoder's record as a block of 320 words, by document 02, CR 14, alone: what is stored, what is read, what is
//! refused. Written from the document and not from the crates, so that the two can be compared.

pub const WORDS: usize = 320;
pub const PLACES: usize = 32;
const FARTHEST: u64 = 1 << 62;
const SIZE_LIMIT: u64 = 1 << 56;

#[derive(Clone, Default)]
pub struct Master {
    pub id: u64,
    pub size: Option<u64>,
    pub start: u64,
    pub data: u64,
    pub count: u64,
}

#[derive(Clone, Default)]
pub struct End {
    pub id: u64,
    pub offset: u64,
    pub count: u64,
}

#[derive(Clone, Default)]
pub struct Record {
    pub allowed: [bool; 3],
    pub strict: bool,
    pub greatest: Option<u64>,
    pub position: u64,
    pub settled: bool,
    pub finished: bool,
    pub open: Vec<Master>,
    pub waiting: Vec<End>,
}

/// Refusal 11 of a record.
fn is_bad(r: &Record) -> bool {
    let p = r.position;
    let over = |m: &Master| m.data > p || m.count > p || m.size.is_some_and(|n| n as u128 > SIZE_LIMIT as u128 + p as u128);
    p > FARTHEST || r.open.len() > PLACES || r.waiting.len() > PLACES || r.open.iter().any(over) || r.waiting.iter().any(|e| e.count > p)
}

/// The words of layout 2.
pub fn store(r: &Record) -> Result<Vec<u64>, u64> {
    if is_bad(r) {
        return Err(11);
    }
    let mut w = vec![2];
    w.extend(r.allowed.map(u64::from));
    w.extend([r.strict.into(), r.greatest.is_some().into(), r.greatest.unwrap_or(0)]);
    w.extend([r.position, r.settled.into(), r.finished.into(), r.open.len() as u64]);
    for k in 0..PLACES {
        let known = |m: &Master| vec![m.id, m.size.is_some().into(), m.size.unwrap_or(0), m.start, m.data, m.count];
        w.extend(r.open.get(k).map_or(vec![0; 6], known));
    }
    w.push(r.waiting.len() as u64);
    for k in 0..PLACES {
        w.extend(r.waiting.get(k).map_or([0; 3], |e| [e.id, e.offset, e.count]));
    }
    w.resize(WORDS, 0);
    Ok(w)
}

/// The words of layout 1: those of layout 2 without strict and the counts, the later ones moved up.
pub fn as_layout_1(w: &[u64]) -> Vec<u64> {
    let mut v = vec![1];
    v.extend(&w[1..4]);
    v.extend(&w[5..11]);
    (0..PLACES).for_each(|k| v.extend(&w[11 + 6 * k..16 + 6 * k]));
    v.push(w[203]);
    (0..PLACES).for_each(|k| v.extend(&w[204 + 3 * k..206 + 3 * k]));
    v.resize(WORDS, 0);
    v
}

/// Reads the words of one layout after the other, noting what 92 is for.
struct Reader<'a> {
    words: &'a [u64],
    at: usize,
    is_odd: bool,
}

impl Reader<'_> {
    fn word(&mut self) -> u64 {
        self.at += 1;
        self.words[self.at - 1]
    }

    fn yes(&mut self) -> bool {
        let w = self.word();
        self.is_odd |= w > 1;
        w == 1
    }

    fn unused(&mut self, count: usize) {
        for _ in 0..count {
            self.is_odd |= self.word() != 0;
        }
    }

    /// A number that is there or absent; an absent one is 0.
    fn given(&mut self) -> Option<u64> {
        let is_there = self.yes();
        let n = self.word();
        self.is_odd |= !is_there && n != 0;
        is_there.then_some(n)
    }
}

/// The record of a block, or 91, 92, 11 in this order; 90 is the caller's, who has the bytes.
pub fn restore(words: &[u64]) -> Result<Record, u64> {
    let counted = match words[0] {
        2 => true,
        1 => false,
        _ => return Err(91),
    };
    let mut b = Reader { words, at: 1, is_odd: false };
    let mut r = Record { allowed: [b.yes(), b.yes(), b.yes()], ..Record::default() };
    r.strict = counted && b.yes();
    r.greatest = b.given();
    r.position = b.word();
    r.settled = b.yes();
    r.finished = b.yes();
    let open = b.word();
    for k in 0..PLACES as u64 {
        if k >= open {
            b.unused(if counted { 6 } else { 5 });
            continue;
        }
        let id = b.word();
        let size = b.given();
        let (start, data) = (b.word(), b.word());
        let count = if counted { b.word() } else { 0 };
        r.open.push(Master { id, size, start, data, count });
    }
    let waiting = b.word();
    for k in 0..PLACES as u64 {
        if k >= waiting {
            b.unused(if counted { 3 } else { 2 });
            continue;
        }
        let (id, offset) = (b.word(), b.word());
        let count = if counted { b.word() } else { 0 };
        r.waiting.push(End { id, offset, count });
    }
    b.unused(WORDS - b.at);
    if b.is_odd {
        return Err(92);
    }
    if open > PLACES as u64 || waiting > PLACES as u64 || is_bad(&r) {
        return Err(11);
    }
    Ok(r)
}
