//! Calls on records made by hand, at and over every limit of the state.

use crate::counts::{over, within, Counts};
use crate::limits::{GREATEST_POSITION, MOST_OPEN};
use crate::player::Player;
use crate::prng::Prng;
use crate::script::listed;
use crate::stream::{document, Faults};
use crate::table::{any_id, ill_formed, of_document, Part, Table};
use std::io;
use std::path::Path;

const RECORDS: usize = 40_000;

pub fn generate(folder: &Path, prng: &mut Prng) -> io::Result<()> {
    let mut player = Player::create(folder, "decoder-records")?;
    let mut table = of_document();
    let mut beside = prng.beside();
    player.lend_document_table()?;
    for turn in 0..RECORDS {
        if turn % 16 == 15 {
            table = if prng.below(3) == 0 {
                of_document()
            } else {
                ill_formed(prng)
            };
            player.call(&table.call(prng))?;
        }
        let mut record = random_record(prng, &table);
        record.count(&mut beside);
        player.call(&record.call())?;
        let mut unread = document(prng, &table, Faults { one_in: 8 });
        unread.truncate(1 + prng.index(60));
        for _ in 0..1 + prng.below(4) {
            let name = prng.pick(&["decode", "decode", "eof", "recover"]);
            if prng.below(6) == 0 {
                unread.clear();
            }
            player.lend(name, &mut unread)?;
            if record.is_shown() {
                player.call("st")?;
            }
        }
    }
    player.finish()
}

struct Hand {
    allowances: u64,
    greatest: Option<u64>,
    position: u64,
    is_settled: bool,
    is_finished: bool,
    open: Vec<String>,
    waiting: Vec<String>,
    counts: Option<Counts>,
}

impl Hand {
    fn call(&self) -> String {
        let record = format!(
            "set a={} m={} p={} s={} f={} O={} W={}",
            self.allowances,
            self.greatest.map_or_else(|| "-".to_string(), |size| size.to_string()),
            self.position,
            u8::from(self.is_settled),
            u8::from(self.is_finished),
            listed(self.open.clone()),
            listed(self.waiting.clone()),
        );
        let Some(counts) = &self.counts else {
            return record;
        };
        let [open, waiting] = counts.each_ref().map(|list| listed(list.iter().map(u64::to_string)));
        format!("{record} C={open} V={waiting}")
    }

    /// Counts of children in most records, in some of them one over the position.
    fn count(&mut self, prng: &mut Prng) {
        let held = [self.open.len(), self.waiting.len()];
        self.counts = match prng.below(16) {
            0..=3 => None,
            4 => Some(over(prng, self.position, held)),
            _ => Some(within(prng, self.position, held)),
        };
    }

    /// A 33rd entry only says that there are too many; what `st` prints of it is left open.
    fn is_shown(&self) -> bool {
        self.open.len() <= MOST_OPEN && self.waiting.len() <= MOST_OPEN
    }
}

fn random_record(prng: &mut Prng, table: &Table) -> Hand {
    let mut record = sound_record(prng, table);
    if prng.below(6) == 0 {
        spoil(prng, table, &mut record);
    }
    record
}

fn sound_record(prng: &mut Prng, table: &Table) -> Hand {
    let position = some_position(prng);
    let open_count = prng.pick(&[0, 0, 1, 1, 2, 2, 3, 4, 8, 31, 32, 32]);
    let waiting_count = prng.pick(&[0, 0, 0, 0, 0, 0, 0, 1, 2, 32]);
    Hand {
        allowances: prng.pick(&[0, 0, 0, 2, 1, 3, 4, 6, 7]),
        greatest: prng.pick(&[None, Some(4_000_000_000), Some(4_000_000_000), Some(5), Some(u64::MAX)]),
        position,
        is_settled: prng.below(3) > 0,
        is_finished: prng.below(10) == 0,
        open: open_masters(prng, table, position, open_count),
        waiting: waiting_ends(prng, table, waiting_count),
        counts: None,
    }
}

fn some_position(prng: &mut Prng) -> u64 {
    let small = prng.below(300);
    match prng.below(12) {
        0 => GREATEST_POSITION - small % 80,
        1 => (1 << 56) + small,
        2 => prng.of_any_magnitude() >> 2,
        _ => small,
    }
}

fn waiting_ends(prng: &mut Prng, table: &Table, count: usize) -> Vec<String> {
    (0..count)
        .map(|_| format!("{:X}:{}", table.some_id(prng), prng.of_any_magnitude()))
        .collect()
}

/// Open masters along a path of the table or of any IDs, with ends around the position and at the limit.
fn open_masters(prng: &mut Prng, table: &Table, position: u64, count: usize) -> Vec<String> {
    let id = table.some_id(prng);
    let path = table.first(id).map_or_else(Vec::new, |entry| entry.path.clone());
    let is_ending = prng.below(4) == 0;
    (0..count)
        .map(|place| {
            let id = match path.get(place) {
                Some(Part::Id(id)) if prng.below(10) > 0 => *id,
                _ if prng.below(20) == 0 => any_id(prng),
                _ if prng.below(12) == 0 => table.some_id(prng),
                _ => table.some_master(prng),
            };
            open_master(prng, id, position, is_ending)
        })
        .collect()
}

fn open_master(prng: &mut Prng, id: u64, position: u64, is_ending: bool) -> String {
    let data_start = position.saturating_sub(prng.below(40));
    let start = data_start.saturating_sub(prng.below(12));
    let gone = position - data_start;
    let size = match prng.below(8) {
        0 => (position + (1 << 56) - prng.below(2)).to_string(),
        1 if is_ending => gone.saturating_sub(prng.below(3)).to_string(),
        1..=5 => (gone + 1 + prng.below(60)).to_string(),
        _ => "u".to_string(),
    };
    format!("{id:X}:{size}:{start}:{data_start}")
}

/// Breaks one rule of the state, or almost.
fn spoil(prng: &mut Prng, table: &Table, record: &mut Hand) {
    let position = record.position;
    let id = table.some_master(prng);
    match prng.below(6) {
        0 => record.position = prng.pick(&[GREATEST_POSITION, GREATEST_POSITION + 1, 1 << 63, u64::MAX]),
        1 => record.open = open_masters(prng, table, position, MOST_OPEN + 1),
        2 => record.waiting = waiting_ends(prng, table, MOST_OPEN + 1),
        3 => {
            let data_start = prng.pick(&[position + 1, position + 2, u64::MAX]);
            put_somewhere(prng, &mut record.open, format!("{id:X}:u:0:{data_start}"));
        }
        4 => {
            let limit = (1 << 56) + position;
            let size = prng.pick(&[limit, limit + 1, 1 << 63, u64::MAX]);
            put_somewhere(prng, &mut record.open, format!("{id:X}:{size}:0:{position}"));
        }
        _ => put_somewhere(prng, &mut record.open, format!("{id:X}:5:{}:{position}", u64::MAX)),
    }
}

fn put_somewhere(prng: &mut Prng, open: &mut Vec<String>, master: String) {
    if open.is_empty() {
        open.push(master);
        return;
    }
    let place = prng.index(open.len());
    open[place] = master;
}
