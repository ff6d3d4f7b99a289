//! Whether cutting matters: rows of decode calls from the same record on the same bytes, lent in one piece (behind the
//! line `# one piece`) and in several (behind `# in pieces`), each next piece as the unread rest followed by it. The
//! events, the last answer, the record at the end and the unread rest must be the same, by document 02, CR 6.

use oracle::fields::bytes;

const ONE_PIECE: &str = "# one piece";
const IN_PIECES: &str = "# in pieces";

/// A row of calls, as its answers tell it.
#[derive(Default)]
struct Row {
    /// the call that sets the record
    record: String,
    events: Vec<String>,
    last: String,
    state: String,
    /// all bytes that were lent, and those that were not taken
    bytes: Vec<u8>,
    rest: Vec<u8>,
    pieces: u64,
}

/// Goes through a script and its answers.
#[derive(Default)]
pub struct Joined {
    row: Option<Row>,
    whole: Option<Row>,
    is_cut: bool,
    pub rows: u64,
    pub cut: u64,
    pub pieces: u64,
    pub events: u64,
    pub refused: u64,
    pub faults: Vec<String>,
}

impl Joined {
    /// All of a script, a line of answers for each line that has one.
    pub fn of(script: impl Iterator<Item = String>, mut answers: impl Iterator<Item = String>) -> Joined {
        let mut joined = Joined::default();
        for line in script {
            if line.starts_with('#') || line.starts_with("table ") {
                joined.close();
            }
            if line.starts_with('#') {
                joined.is_cut = line == IN_PIECES;
                joined.row = (line == IN_PIECES || line == ONE_PIECE).then(Row::default);
                continue;
            }
            let answer = answers.next().unwrap_or_else(|| "(no answer)".to_string());
            let fault = joined.row.as_mut().and_then(|row| row.follow(&line, &answer).err());
            if let Some(fault) = fault {
                joined.row = None;
                joined.faults.push(format!("{fault}: {line}: {answer}"));
            }
        }
        joined.close();
        joined
    }

    fn close(&mut self) {
        let Some(row) = self.row.take() else { return };
        if !self.is_cut {
            self.rows += 1;
            self.events += row.events.len() as u64;
            self.refused += u64::from(row.is_refused());
            self.whole = Some(row);
            return;
        }
        self.cut += 1;
        self.pieces += row.pieces;
        let fault = self.whole.as_ref().map_or(Some("no row in one piece"), |whole| whole.differs_from(&row));
        if let Some(fault) = fault {
            self.faults.push(format!("{fault}: {}: {}", row.record, row.last));
        }
    }
}

impl Row {
    fn is_refused(&self) -> bool {
        self.last.starts_with("X ")
    }

    fn follow(&mut self, call: &str, answer: &str) -> Result<(), &'static str> {
        match call.split_once(' ') {
            None if call == "st" && self.last.is_empty() => return Err("the row is not at its end"),
            None if call == "st" => self.state = answer.to_string(),
            Some(("set", _)) if answer == "ok" && self.record.is_empty() => self.record = call.to_string(),
            Some(("decode", lent)) if self.state.is_empty() => self.decode(&bytes(lent).ok_or("no bytes")?, answer)?,
            _ => return Err("no call of a row"),
        }
        Ok(())
    }

    /// A call lends what the one before left, and where that needed more, a piece behind it.
    fn decode(&mut self, lent: &[u8], answer: &str) -> Result<(), &'static str> {
        let Some(piece) = lent.strip_prefix(&self.rest[..]) else { return Err("the unread rest is not lent") };
        let is_next_piece = self.pieces == 0 || self.last.starts_with("N ");
        if !is_next_piece && !(piece.is_empty() && self.last.is_empty()) {
            return Err("a piece where none is wanted");
        }
        self.pieces += u64::from(is_next_piece);
        self.bytes.extend(piece);
        self.rest = lent.to_vec();
        self.last.clear();
        if answer.starts_with("N ") || answer.starts_with("X ") {
            self.last = answer.to_string();
            return Ok(());
        }
        let taken = answer.split(' ').find_map(|word| word.strip_prefix("t=")?.parse().ok());
        let taken: usize = taken.ok_or("no answer of a row")?;
        self.rest = lent.get(taken..).ok_or("more taken than lent")?.to_vec();
        self.events.push(answer.to_string());
        Ok(())
    }

    /// What is not as with the row in one piece, this one. Behind a refusal the last pieces are not lent.
    fn differs_from(&self, cut: &Row) -> Option<&'static str> {
        let is_whole = |whole: &[u8], part: &[u8]| whole == part || (cut.is_refused() && whole.starts_with(part));
        [
            (self.record != cut.record, "another record to begin with"),
            (self.events != cut.events, "other events"),
            (self.last.is_empty() || self.last != cut.last, "another last answer"),
            (self.state.is_empty() || self.state != cut.state, "another record at the end"),
            (!is_whole(&self.bytes, &cut.bytes), "other bytes"),
            (!is_whole(&self.rest, &cut.rest), "another unread rest"),
        ]
        .into_iter()
        .find_map(|(differs, what)| differs.then_some(what))
    }
}
