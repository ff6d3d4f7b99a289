//! Calls on tables: the shape, the check, which ID ends which master, the path walk.

use crate::limits::{MOST_ENTRIES, MOST_OPEN};
use crate::prng::Prng;
use crate::script::{listed, Script};
use crate::strings::strings;
use crate::table::{any_id, at_a_limit_of_shape, ill_formed, largest, of_document, well_formed};
use crate::table::{Entry, Part, Table, ANYWHERE, BINARY, MASTER};
use std::io;
use std::path::Path;

const WELL_FORMED: usize = 1_200;
const ILL_FORMED: usize = 2_400;
const LARGEST: usize = 60;
const AT_A_LIMIT: usize = 4_000;
const STRICT: usize = 600;
const ENDED_CALLS: usize = 16;
const PATH_CALLS: usize = 24;
/// As many words as a line can write beside the other list's `-`.
const MOST_WORDS: usize = 8_188;
const TELLING_PARTS: [Part; 10] = [
    Part::Id(0xA1),
    Part::Id(0xA2),
    ANYWHERE,
    Part::Global(1, 0),
    Part::Global(2, 0),
    Part::Global(3, 0),
    Part::Global(0, 1),
    Part::Global(0, 2),
    Part::Global(2, 3),
    Part::Global(3, 2),
];

const LINES: &[&str] = &[
    "check",
    "ended A1 A2",
    "path A1 -",
    "table - -",
    "check",
    "table -",
    "table - - -",
    "table",
    "table  -",
    "table , -",
    "table - ,",
    "table 81,0,0,0, -",
    "table ,81,0,0,0 -",
    "table 81,0,,0,0 -",
    "table 81,0,0,0 -",
    "ended 81 81",
    "table 81,00,0,0 -",
    "table 081,0,0,0 -",
    "table 8a,0,0,0 -",
    "table 0x81,0,0,0 -",
    "table 81;0;0;0 -",
    "table 81,0,0 -",
    "ended 81 81",
    "path 81 -",
    "check",
    "table FFFFFFFFFFFFFFFF,0,0,0 -",
    "check",
    "table 1FFFFFFFFFFFFFFFF,0,0,0 -",
    "table 81,0,0,-1 -",
    "check ",
    "check 1",
    "ended",
    "ended 81",
    "ended 81 81 81",
    "ended 81 081",
    "ended 81 -",
    "ended 81 8g",
    "ended 0 0",
    "ended 00 0",
    "ended FFFFFFFFFFFFFFFF 1",
    "ended 10000000000000000 1",
    "path",
    "path 81",
    "path 81 - -",
    "path 81 ",
    "path 81 81",
    "path 81 81:",
    "path 81 81:K",
    "path 81 81:k",
    "path 81 81:u",
    "path 81 81:u,",
    "path 81 ,81:u",
    "path 81 81:u,82:k",
    "path 81 81:u 82:k",
    "path 81 81:u:k",
    "path 81 81:uk",
    "path 81 :u",
    "path 81 081:u",
    "path 0 0:u",
];

pub fn generate(folder: &Path, seed: u64) -> io::Result<()> {
    let mut prng = Prng::new(seed ^ 1);
    lines(folder)?;
    let mut script = Script::create(folder, "table-random")?;
    about(&mut script, &mut prng, &of_document())?;
    for _ in 0..WELL_FORMED {
        let table = well_formed(&mut prng);
        about(&mut script, &mut prng, &table)?;
    }
    for _ in 0..ILL_FORMED {
        let table = ill_formed(&mut prng);
        about(&mut script, &mut prng, &table)?;
    }
    for _ in 0..LARGEST {
        let table = largest(&mut prng);
        about(&mut script, &mut prng, &table)?;
    }
    script.finish()?;
    shapes(folder, &mut prng)?;
    let mut script = Script::create(folder, "table-walks")?;
    walks(&mut script, &mut prng, "path")?;
    script.finish()?;
    strict(folder, &mut prng)
}

/// What is asked strictly, of good tables, of tables with faults and of bad shapes.
fn strict(folder: &Path, prng: &mut Prng) -> io::Result<()> {
    let mut script = Script::create(folder, "table-strict")?;
    for _ in 0..STRICT {
        let tables = [of_document(), well_formed(prng), ill_formed(prng), largest(prng)];
        for table in tables {
            script.line(table.call(prng))?;
            asked(&mut script, prng, &table, ["sended", "spath"])?;
        }
        script.line(at_a_limit_of_shape(prng).call())?;
        asked(&mut script, prng, &of_document(), ["sended", "spath"])?;
    }
    walks(&mut script, prng, "spath")?;
    script.finish()
}

fn lines(folder: &Path) -> io::Result<()> {
    let mut script = Script::create(folder, "table-lines")?;
    script.lines(LINES.iter().map(|line| line.to_string()))?;
    for depth in [MOST_OPEN - 1, MOST_OPEN, MOST_OPEN + 1] {
        script.line(format!("path 81 {}", vec!["82:k"; depth].join(",")))?;
    }
    for count in [MOST_WORDS, MOST_WORDS + 1] {
        let words = vec!["0"; count].join(",");
        script.line(format!("table - {words}"))?;
        script.line("check")?;
        script.line(format!("table {words} -"))?;
        script.line("ended 81 81")?;
    }
    script.finish()
}

/// A table, and what is asked of it.
fn about(script: &mut Script, prng: &mut Prng, table: &Table) -> io::Result<()> {
    script.line(table.call(prng))?;
    script.line("check")?;
    asked(script, prng, table, ["ended", "path"])
}

/// Who ends whom and the place, by the calls of these names.
fn asked(script: &mut Script, prng: &mut Prng, table: &Table, [ended, path]: [&str; 2]) -> io::Result<()> {
    for _ in 0..ENDED_CALLS {
        script.line(format!("{ended} {:X} {:X}", table.some_id(prng), table.some_id(prng)))?;
    }
    for _ in 0..PATH_CALLS {
        let id = table.some_id(prng);
        let stack = stack_for(prng, table, id);
        script.line(format!("{path} {id:X} {}", stack_field(&stack)))?;
    }
    Ok(())
}

fn shapes(folder: &Path, prng: &mut Prng) -> io::Result<()> {
    let mut script = Script::create(folder, "table-shapes")?;
    for _ in 0..AT_A_LIMIT {
        let words = at_a_limit_of_shape(prng);
        let ids: Vec<u64> = words.entries.iter().copied().step_by(4).chain([any_id(prng)]).collect();
        script.line(words.call())?;
        script.line("check")?;
        for _ in 0..2 {
            script.line(format!("ended {:X} {:X}", prng.pick(&ids), prng.pick(&ids)))?;
            script.line(format!(
                "path {:X} {:X}:k,{:X}:u",
                prng.pick(&ids),
                prng.pick(&ids),
                prng.pick(&ids)
            ))?;
        }
    }
    script.finish()
}

/// Every path of up to three telling parts against every stack of up to four of two masters.
fn walks(script: &mut Script, prng: &mut Prng, call: &str) -> io::Result<()> {
    let stacks = lists(&[0xA1, 0xA2], 4);
    for paths in lists(&TELLING_PARTS, 3).chunks(MOST_ENTRIES - 2) {
        let ids = 0x4000..0x4000 + paths.len() as u64;
        let masters = [0xA1, 0xA2].map(|id| Entry {
            id,
            kind: MASTER,
            path: Vec::new(),
        });
        let values = ids.clone().zip(paths).map(|(id, path)| Entry {
            id,
            kind: BINARY,
            path: path.clone(),
        });
        let table = Table {
            entries: masters.into_iter().chain(values).collect(),
        };
        script.line(table.call(prng))?;
        for id in ids {
            script.lines(
                stacks
                    .iter()
                    .map(|stack| format!("{call} {id:X} {}", stack_field(&known(stack)))),
            )?;
        }
    }
    Ok(())
}

/// Every list of at most so many of the items, the shorter ones first; the last place changes fastest.
fn lists<T: Copy>(items: &[T], longest: u32) -> Vec<Vec<T>> {
    strings(items, 0, longest)
        .map(|string| string.into_iter().rev().collect())
        .collect()
}

fn known(ids: &[u64]) -> Vec<Open> {
    ids.iter()
        .map(|id| Open {
            id: *id,
            is_known: true,
        })
        .collect()
}

struct Open {
    id: u64,
    is_known: bool,
}

/// Open masters that the ID's path allows, or almost.
fn stack_for(prng: &mut Prng, table: &Table, id: u64) -> Vec<Open> {
    let mostly_known = prng.below(4) > 0;
    let ids = match table.first(id) {
        Some(entry) => entry.path.iter().flat_map(|part| parents(prng, table, *part)).collect(),
        None => Vec::new(),
    };
    let ids = bent(prng, table, ids);
    ids.into_iter()
        .map(|id| Open {
            id,
            is_known: mostly_known == (prng.below(6) > 0),
        })
        .collect()
}

fn parents(prng: &mut Prng, table: &Table, part: Part) -> Vec<u64> {
    match part {
        Part::Id(id) => vec![id],
        Part::Global(min, max) => {
            let count = around(prng, min, max);
            (0..count).map(|_| table.some_master(prng)).collect()
        }
    }
}

/// A number of parents at a bound of a Global, or one off.
fn around(prng: &mut Prng, min: u64, max: u64) -> u64 {
    let bound = if prng.below(2) == 0 { min } else { max };
    (bound.min(6) + prng.below(3)).saturating_sub(2)
}

fn bent(prng: &mut Prng, table: &Table, mut ids: Vec<u64>) -> Vec<u64> {
    match prng.below(10) {
        0 => drop(ids.pop()),
        1 => ids.push(table.some_id(prng)),
        2 => ids.insert(prng.index(ids.len() + 1), table.some_master(prng)),
        3 if !ids.is_empty() => drop(ids.remove(prng.index(ids.len()))),
        4 if !ids.is_empty() => {
            let place = prng.index(ids.len());
            ids[place] = table.some_id(prng);
        }
        5 if ids.len() > 1 => {
            let place = 1 + prng.index(ids.len() - 1);
            ids.swap(place - 1, place);
        }
        6 => ids = (0..prng.below(6)).map(|_| table.some_id(prng)).collect(),
        7 => ids.extend(
            (0..prng.below(12))
                .map(|_| table.some_master(prng))
                .collect::<Vec<u64>>(),
        ),
        _ => {}
    }
    ids.truncate(MOST_OPEN);
    ids
}

fn stack_field(stack: &[Open]) -> String {
    listed(
        stack
            .iter()
            .map(|open| format!("{:X}:{}", open.id, if open.is_known { "k" } else { "u" })),
    )
}
