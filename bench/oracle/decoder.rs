//! The decoder's calls: tag_decoder.rs.

use crate::counts::Counts;
use crate::fields::{bytes, list, unsigned, word};
use crate::guard::guarded;
use crate::missing::{is_size_begun, missing_of_header_and_payload};
use crate::numbers::bits_or_nan;
use crate::table::{is_lent, Tag};
use bytes::BytesMut;
use ebml_iterable::errors::tag_iterator::{CorruptedFileError, TagIteratorError};
use ebml_iterable::errors::tool::ToolError;
use ebml_iterable::tag_decoder::record::{look, pass_over, read_id, settle, Open, Place, Record};
use ebml_iterable::tag_decoder::{PositionedTag, TagDecoder};
use ebml_iterable::tag_iterator_util::{AllowableErrors, EBMLSize};
use std::panic::AssertUnwindSafe;

const MOST_OPEN: usize = 32;
const MOST_WAITING: usize = 32;
const GREATEST_POSITION: u64 = 1 << 62;
const GREATEST_SIZE: u64 = 1 << 56;
const MOST_SET: usize = 33;
/// The bytes that are appended to see whether more are asked for.
const MOST_APPENDED: usize = 512;
const FILLERS: [u8; 4] = [0x00, 0x01, 0x80, 0xFF];

type Answered = Result<Option<PositionedTag<Tag>>, TagIteratorError>;

pub struct Session {
    decoder: TagDecoder<Tag>,
    counts: Counts,
    is_strict: bool,
    /// whether bytes were lent strictly, so that the Rust's record is no longer the session's
    is_apart: bool,
}

impl Default for Session {
    fn default() -> Self {
        Session {
            decoder: TagDecoder::new(&[]),
            counts: Counts::default(),
            is_strict: false,
            is_apart: false,
        }
    }
}

impl Session {
    /// The answer line of a decoder call, or nothing if the fields are no such call.
    pub fn answer(&mut self, fields: &[&str]) -> Option<String> {
        match fields {
            ["new"] => *self = Session::default(),
            ["allow", sum] => self.decoder.allow_errors(&allowances(allowed(sum)?)),
            ["max", "-"] => self.decoder.set_max_allowable_tag_size(None),
            ["max", size] => self.decoder.set_max_allowable_tag_size(Some(number(size)?)),
            ["strict", on] => self.is_strict = flag(on)?,
            ["set", settings @ ..] if !settings.is_empty() => return self.set(settings),
            ["st"] => return Some(self.beside(state(&self.record(), &self.counts, self.is_strict))),
            ["decode", input] => {
                return Some(self.lend(&bytes(input)?, |it, input| it.step(input, TagDecoder::decode)))
            }
            ["eof", input] => {
                return Some(self.lend(&bytes(input)?, |it, input| it.step(input, TagDecoder::decode_eof)))
            }
            ["recover", input] => return Some(self.lend(&bytes(input)?, Session::recover)),
            _ => return None,
        }
        Some("ok".to_string())
    }

    fn set(&mut self, settings: &[&str]) -> Option<String> {
        let (record, counts, is_strict) = set(self.record(), self.counts.clone(), self.is_strict, settings)?;
        self.decoder = record.into_decoder();
        self.counts = counts;
        self.is_strict = is_strict;
        Some(self.beside("ok".to_string()))
    }

    fn lend(&mut self, input: &[u8], call: impl Fn(&mut Session, &[u8]) -> String) -> String {
        self.is_apart |= self.is_strict;
        let answer = call(self, input);
        self.beside(answer)
    }

    /// The Rust has no strict reading: once bytes are lent strictly, its answers are marked until the next `new`.
    fn beside(&self, answer: String) -> String {
        if self.is_apart {
            format!("NOSTRICT {answer}")
        } else {
            answer
        }
    }

    fn record(&self) -> Record<Tag> {
        Record::of(&self.decoder)
    }

    fn step(&mut self, input: &[u8], call: fn(&mut TagDecoder<Tag>, &mut BytesMut) -> Answered) -> String {
        let before = self.record();
        if let Some(answer) = not_asked(&before, &self.counts, input) {
            return answer;
        }
        let mut lent = BytesMut::from(input);
        let answered = guarded(AssertUnwindSafe(|| call(&mut self.decoder, &mut lent)));
        let taken = input.len() - lent.len();
        self.note_settling(&before, input);
        let answer = self.answer_to(answered, before, input, taken);
        self.compare_counts();
        answer
    }

    fn answer_to(&mut self, answered: Option<Answered>, before: Record<Tag>, input: &[u8], taken: usize) -> String {
        match answered {
            None => self.take_back(before, input, "PANIC"),
            Some(Ok(Some(_))) if self.record().open.len() > MOST_OPEN => self.take_back(before, input, "LIMIT"),
            Some(Ok(Some(tag))) => {
                let count = self.counts.hand_out(&tag.tag, self.record().open.len());
                let count = count.map_or_else(String::new, |count| format!(" count={count}"));
                format!("{} {}{count}", event(tag, input, taken), self.reached(taken))
            }
            Some(Ok(None)) if self.record().is_finished => format!("F {}", self.reached(taken)),
            Some(Ok(None)) => format!("N {} need={}", self.reached(taken), self.missing(input)),
            Some(Err(error)) => {
                assert_eq!((taken, self.decoder.position()), (0, before.position));
                refusal(&error, before.position, input)
            }
        }
    }

    /// If the call has settled: the Rust settles the record before the call once more, and its parents are counted.
    fn note_settling(&mut self, before: &Record<Tag>, input: &[u8]) {
        if let (true, Some(id)) = (self.has_settled(before), read_id(input)) {
            let mut decoder = before.clone().into_decoder();
            settle(&mut decoder, id);
            self.counts.settle(Record::of(&decoder).open.len());
        }
    }

    fn has_settled(&self, before: &Record<Tag>) -> bool {
        self.record().is_settled && !before.is_settled
    }

    /// There are as many counts as the Rust has open masters and waiting Ends.
    fn compare_counts(&self) {
        let record = self.record();
        assert_eq!(self.counts.open.len(), record.open.len());
        assert_eq!(self.counts.waiting.len(), record.waiting.len());
    }

    /// How many bytes are missing, by the bytes alone. The Rust is asked too, on the record as it is: with fewer it asks
    /// for more again, and with so many, if they are chosen well, it does not.
    fn missing(&self, input: &[u8]) -> usize {
        let missing = missing_of_header_and_payload(input);
        let fewer = (missing - 1).min(MOST_APPENDED);
        assert!(FILLERS.iter().all(|filler| self.asks(input, &vec![*filler; fewer])));
        if missing <= MOST_APPENDED && !is_size_begun(input) {
            let size_0 = [vec![0; missing - 1], vec![0x80]].concat();
            let some = [size_0, vec![0; missing], vec![0xFF; missing]];
            assert!(some.iter().any(|further| !self.asks(input, further)));
        }
        missing
    }

    /// Whether the Rust asks for more still where these bytes are appended.
    fn asks(&self, input: &[u8], further: &[u8]) -> bool {
        let mut decoder = self.record().into_decoder();
        let mut lent = BytesMut::from(&[input, further].concat()[..]);
        let answered = guarded(AssertUnwindSafe(|| decoder.decode(&mut lent)));
        matches!(answered, Some(Ok(None))) && !Record::of(&decoder).is_finished
    }

    fn reached(&self, taken: usize) -> String {
        format!("t={taken} p={}", self.decoder.position())
    }

    /// Puts the record back as it was before the call, but for a settling that the call made.
    fn take_back(&mut self, before: Record<Tag>, input: &[u8], why: &str) -> String {
        let has_settled = self.has_settled(&before);
        let position = before.position;
        let number = match why {
            "LIMIT" => 19,
            _ if before.is_finished && !input.is_empty() => 13,
            _ => 24,
        };
        self.decoder = before.into_decoder();
        if let (true, Some(id)) = (has_settled, read_id(input)) {
            settle(&mut self.decoder, id);
        }
        format!("{why} X {number} {position}")
    }

    fn recover(&mut self, input: &[u8]) -> String {
        let before = self.record();
        if let Some(answer) = not_asked(&before, &self.counts, input) {
            return answer;
        }
        let walk = self.walk(input);
        if self.has_settled(&before) {
            self.counts.settle(self.record().open.len());
        }
        self.compare_counts();
        if walk.has_failed {
            self.grow(if walk.is_found { walk.passed } else { 0 });
            return format!("HANGS {}", self.recovered(walk.is_found, walk.passed));
        }
        self.decoder = before.into_decoder();
        let mut lent = BytesMut::from(input);
        let is_found = self.decoder.try_recover(&mut lent);
        let passed = input.len() - lent.len();
        assert_eq!((is_found, passed), (walk.is_found, walk.passed));
        self.recovered(is_found, passed)
    }

    /// Document 01's recovery, which moves on where a header reads and fails; the original stays there for ever.
    fn walk(&mut self, input: &[u8]) -> Walk {
        let mut rest = BytesMut::from(input);
        let mut has_failed = false;
        loop {
            let passed = input.len() - rest.len();
            match look(&mut self.decoder, &rest) {
                Place::Passes => {
                    return Walk {
                        is_found: true,
                        passed,
                        has_failed,
                    }
                }
                Place::Incomplete => {
                    return Walk {
                        is_found: false,
                        passed,
                        has_failed,
                    }
                }
                Place::Fails => has_failed = true,
                Place::NoHeader => {}
            }
            pass_over(&mut self.decoder, &mut rest);
        }
    }

    fn grow(&mut self, passed: usize) {
        let mut record = self.record();
        for open in &mut record.open {
            if let EBMLSize::Known(size) = open.size {
                open.size = EBMLSize::Known(size + passed);
            }
        }
        self.decoder = record.into_decoder();
    }

    fn recovered(&self, is_found: bool, passed: usize) -> String {
        let letter = if is_found { "Y" } else { "Q" };
        format!("{letter} {} passed={passed}", self.reached(passed))
    }
}

struct Walk {
    is_found: bool,
    passed: usize,
    has_failed: bool,
}

/// The refusals that the Rust does not have and that come before all others.
fn not_asked(record: &Record<Tag>, counts: &Counts, input: &[u8]) -> Option<String> {
    let position = record.position as u64;
    if !is_lent() {
        return Some("NOTABLE".to_string());
    }
    if !is_in_bounds(record) || !are_counts_in_bounds(counts, position) {
        return Some(format!("LIMIT X 11 {position}"));
    }
    if position + input.len() as u64 > GREATEST_POSITION {
        return Some(format!("LIMIT X 12 {position}"));
    }
    None
}

fn is_in_bounds(record: &Record<Tag>) -> bool {
    let position = record.position as u64;
    record.open.len() <= MOST_OPEN
        && record.waiting.len() <= MOST_WAITING
        && position <= GREATEST_POSITION
        && record.open.iter().all(|open| is_open_in_bounds(open, position))
}

fn is_open_in_bounds(open: &Open, position: u64) -> bool {
    let is_size_in_bounds = match open.size {
        EBMLSize::Known(size) => size as u64 <= GREATEST_SIZE + position,
        EBMLSize::Unknown => true,
    };
    is_size_in_bounds && open.data_start as u64 <= position
}

fn are_counts_in_bounds(counts: &Counts, position: u64) -> bool {
    let within = |count: &u64| *count <= position;
    counts.open.iter().all(within) && counts.waiting.iter().all(within)
}

fn event(tag: PositionedTag<Tag>, input: &[u8], taken: usize) -> String {
    let offset = tag.offset;
    match tag.tag {
        Tag::Start(id) => format!("S {id:X} {offset}"),
        Tag::End(id) => format!("E {id:X} {offset}"),
        Tag::Unsigned(id, value) => format!("U {id:X} {offset} {value}"),
        Tag::Signed(id, value) => format!("I {id:X} {offset} {value}"),
        Tag::Float(id, value) => format!("D {id:X} {offset} {}", bits_or_nan(value)),
        Tag::Text(id, data) => format!("T {id:X} {offset} {}", range(&data, input, offset, taken)),
        Tag::Binary(id, data) => format!("B {id:X} {offset} {}", range(&data, input, offset, taken)),
        Tag::Raw(id, data) => format!("R {id:X} {offset} {}", range(&data, input, offset, taken)),
    }
}

/// Where the data of an element stands in the stream: it is the last of what was taken.
fn range(data: &[u8], input: &[u8], offset: usize, taken: usize) -> String {
    let begin = taken - data.len();
    assert_eq!(data, &input[begin..taken]);
    format!("{} {}", offset + begin, offset + taken)
}

fn refusal(error: &TagIteratorError, position: usize, input: &[u8]) -> String {
    match error {
        TagIteratorError::CorruptedFileData(error) => corrupted_file(error, position),
        TagIteratorError::CorruptedTagData { problem, .. } => format!("X {} {position}", corrupted_tag(problem)),
        TagIteratorError::UnexpectedEOF {
            tag_start,
            tag_id,
            tag_size,
            partial_data,
        } => format!(
            "X 23 {tag_start} start={tag_start} id={} size={} part={}",
            or_dash(tag_id.map(|id| format!("{id:X}"))),
            or_dash(tag_size.map(|size| size.to_string())),
            or_dash(partial_data.as_ref().map(|data| partial(data, input, position))),
        ),
        TagIteratorError::ReadError { .. } => unreachable!("the decoder reads no source"),
    }
}

fn corrupted_file(error: &CorruptedFileError, position: usize) -> String {
    let (number, place) = match error {
        CorruptedFileError::InvalidTagData { position, .. } => (14, *position),
        CorruptedFileError::InvalidTagId { position, .. } => (15, *position),
        CorruptedFileError::HierarchyError { .. } => (16, position),
        CorruptedFileError::InvalidTagSize { position, .. } => (17, *position),
        CorruptedFileError::OversizedChildElement { position, .. } => (18, *position),
    };
    format!("X {number} {place}")
}

fn corrupted_tag(problem: &ToolError) -> u64 {
    match problem {
        ToolError::FromUtf8Error(..) => 20,
        ToolError::ReadF64Mismatch(_) => 21,
        ToolError::ReadU64Overflow(_) | ToolError::ReadI64Overflow(_) => 22,
        _ => unreachable!("no vint is read from a payload"),
    }
}

/// Partial data is the end of what was lent.
fn partial(data: &[u8], input: &[u8], position: usize) -> String {
    assert!(input.ends_with(data));
    let end = position + input.len();
    format!("{}-{end}", end - data.len())
}

fn or_dash(text: Option<String>) -> String {
    text.unwrap_or_else(|| "-".to_string())
}

fn allowed(field: &str) -> Option<u8> {
    unsigned(field).filter(|sum| *sum < 8).map(|sum| sum as u8)
}

fn allowances(sum: u8) -> Vec<AllowableErrors> {
    let mut allowances = Vec::new();
    if sum & 1 != 0 {
        allowances.push(AllowableErrors::InvalidTagIds);
    }
    if sum & 2 != 0 {
        allowances.push(AllowableErrors::HierarchyProblems);
    }
    if sum & 4 != 0 {
        allowances.push(AllowableErrors::OversizedTags);
    }
    allowances
}

fn number(field: &str) -> Option<usize> {
    unsigned(field).map(|number| number as usize)
}

fn state(record: &Record<Tag>, counts: &Counts, is_strict: bool) -> String {
    format!(
        "st a={} m={} p={} s={} f={} O={} W={} C={} V={} x={}",
        record.allowed,
        or_dash(record.greatest.map(|size| size.to_string())),
        record.position,
        u8::from(record.is_settled),
        u8::from(record.is_finished),
        joined(record.open.iter().map(open_text)),
        joined(record.waiting.iter().map(waiting_text)),
        joined(counts.open.iter().map(u64::to_string)),
        joined(counts.waiting.iter().map(u64::to_string)),
        u8::from(is_strict),
    )
}

fn joined(items: impl Iterator<Item = String>) -> String {
    let items: Vec<String> = items.collect();
    or_dash((!items.is_empty()).then(|| items.join(",")))
}

fn open_text(open: &Open) -> String {
    let size = match open.size {
        EBMLSize::Known(size) => size.to_string(),
        EBMLSize::Unknown => "u".to_string(),
    };
    format!("{:X}:{size}:{}:{}", open.id, open.start, open.data_start)
}

fn waiting_text(waiting: &PositionedTag<Tag>) -> String {
    let Tag::End(id) = waiting.tag else {
        unreachable!("only Ends wait")
    };
    format!("{id:X}:{}", waiting.offset)
}

fn set(
    mut record: Record<Tag>,
    mut counts: Counts,
    mut is_strict: bool,
    settings: &[&str],
) -> Option<(Record<Tag>, Counts, bool)> {
    let mut keys: Vec<&str> = Vec::new();
    for setting in settings {
        let (key, value) = setting.split_once('=')?;
        if keys.contains(&key) {
            return None;
        }
        keys.push(key);
        match key {
            "a" => record.allowed = allowed(value)?,
            "m" => record.greatest = none_or(value, "-", number)?,
            "p" => record.position = number(value)?,
            "s" => record.is_settled = flag(value)?,
            "f" => record.is_finished = flag(value)?,
            "O" => {
                record.open = short_list(value, open)?;
                counts.open = vec![0; record.open.len()];
            }
            "W" => {
                record.waiting = short_list(value, waiting)?;
                counts.waiting = vec![0; record.waiting.len()];
            }
            "C" => counts.open = counts_of(value, record.open.len())?,
            "V" => counts.waiting = counts_of(value, record.waiting.len())?,
            "x" => is_strict = flag(value)?,
            _ => return None,
        }
    }
    Some((record, counts, is_strict))
}

/// Exactly as many counts as there are masters or Ends.
fn counts_of(field: &str, held: usize) -> Option<Vec<u64>> {
    list(field, unsigned).filter(|counts| counts.len() == held)
}

fn none_or<T>(field: &str, none: &str, read: impl Fn(&str) -> Option<T>) -> Option<Option<T>> {
    if field == none {
        return Some(None);
    }
    read(field).map(Some)
}

fn flag(field: &str) -> Option<bool> {
    match field {
        "0" => Some(false),
        "1" => Some(true),
        _ => None,
    }
}

fn short_list<T>(field: &str, item: impl Fn(&str) -> Option<T>) -> Option<Vec<T>> {
    list(field, item).filter(|items| items.len() <= MOST_SET)
}

fn open(item: &str) -> Option<Open> {
    let fields: Vec<&str> = item.split(':').collect();
    let [id, size, start, data_start] = fields[..] else {
        return None;
    };
    Some(Open {
        id: word(id)?,
        size: none_or(size, "u", number)?.map_or(EBMLSize::Unknown, EBMLSize::Known),
        start: number(start)?,
        data_start: number(data_start)?,
    })
}

fn waiting(item: &str) -> Option<PositionedTag<Tag>> {
    let (id, offset) = item.split_once(':')?;
    Some(PositionedTag {
        tag: Tag::End(word(id)?),
        offset: number(offset)?,
    })
}
