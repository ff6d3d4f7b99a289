//! The lists in turns: a table, and some lists over it. The same seed gives the same turns.

use crate::faults::FAULTS;
use crate::lists::{at_limit, count, walk, Case, Room};
use crate::model::{sizes, List};
use crate::prng::Prng;
use crate::table::Table;
use crate::tables::{bad, good, Lent};

const LISTS: usize = 8;

/// A list, what is wrong with it, and the refusal that this must bring if it is one thing.
pub struct Told {
    pub case: Case,
    pub name: &'static str,
    pub refusal: Option<u64>,
}

pub struct Turn {
    pub lent: Lent,
    pub lists: Vec<Told>,
}

impl Case {
    pub fn list<'a>(&'a self, table: Option<&'a Table>) -> List<'a> {
        List { table, items: &self.items, words_over: self.words_over, values: &self.values }
    }
}

/// A table with eight lists: of twelve tables one fails its check.
pub fn turn(prng: &mut Prng, room: Room) -> Turn {
    let lent = good(prng);
    let table = lent.passed.as_ref().expect("a table that passes");
    if prng.below(12) == 0 {
        let told = |prng: &mut Prng| Told { case: sound(prng, table, room), name: "the table fails", refusal: Some(40) };
        let lists = (0..LISTS).map(|_| told(prng)).collect();
        return Turn { lent: bad(prng), lists };
    }
    let lists = (0..LISTS).map(|_| told(prng, table, room)).collect();
    Turn { lent, lists }
}

/// A list that is written, with an output that is just long enough or a little longer.
fn sound(prng: &mut Prng, table: &Table, room: Room) -> Case {
    let count = count(prng);
    let case = if prng.below(5) == 0 { at_limit(prng, table, room) } else { None };
    let mut case = case.unwrap_or_else(|| walk(prng, table, count, room));
    let whole = sizes(&case.list(Some(table))).expect("a list that is written").whole as usize;
    let more = prng.pick(&[0, 0, 0, 1, 2, 7]);
    case.out = prng.bytes(whole + more);
    case
}

/// A list: a sound one, one with one thing wrong, or with two.
fn told(prng: &mut Prng, table: &Table, room: Room) -> Told {
    let mut case = sound(prng, table, room);
    let good = Told { case: case.clone(), name: "nothing", refusal: None };
    match prng.below(20) {
        0..=10 => good,
        11..=18 => {
            let whole = sizes(&case.list(Some(table))).expect("a list that is written").whole as usize;
            let (name, number, fault) = prng.pick(&FAULTS);
            if number == 44 {
                case.out.truncate(whole);
            }
            let is_done = fault(prng, table, &mut case).is_some();
            let is_counted = number == 41 || case.items.len() <= crate::model::MOST_ITEMS;
            if is_done { Told { case, name, refusal: is_counted.then_some(number) } } else { good }
        }
        _ => {
            let done = (0..2).filter(|_| prng.pick(&FAULTS).2(prng, table, &mut case).is_some()).count();
            Told { case, name: ["nothing", "something", "two things"][done], refusal: None }
        }
    }
}
