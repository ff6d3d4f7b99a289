//! Usage: writer FOLDER LISTS SEED COMMAND..
//! Has COMMAND, our program `replay`, answer scripts with so many random lists for the writer, compares its answers and
//! prints counts. The scripts and the answers stand in FOLDER, the last ones at the end. The result is 1 if there is a
//! difference.

use oracle::fields::{bytes, hex};
use parts::judge::Judge;
use parts::lists::Room;
use parts::model::Item;
use parts::prng::Prng;
use parts::script::{listed, Script};
use parts::turns::{turn, Told, Turn};
use parts::values::SMALL_LIMITS;
use std::fs::File;
use std::io::{self, BufRead, BufReader};
use std::path::Path;
use std::process::{Command, ExitCode};

const LONGEST_LINE: usize = 16_384;
const ROOM: Room = Room { values: 1_500, limits: &SMALL_LIMITS };
/// The turns of one script.
const TURNS: u64 = 2_000;

/// The call of a list, if a line can hold it.
fn call(told: &Told) -> Option<String> {
    let case = &told.case;
    let items: Option<Vec<String>> = case.items.iter().map(item).collect();
    let line = format!("write {} {} {}", listed(items?), hex(&case.values), hex(&case.out));
    (line.len() <= LONGEST_LINE && case.words_over == 0).then_some(line)
}

fn item(item: &Item) -> Option<String> {
    let letter = *b"SUITBDE".get(usize::try_from(item.kind).ok()?)? as char;
    Some(match letter {
        'S' | 'E' => format!("{letter}:{:X}", item.id),
        _ => format!("{letter}:{:X}:{}:{}", item.id, item.offset, item.length),
    })
}

/// The turns of one script; lists that no line can hold are left out.
fn turns(prng: &mut Prng, lists: u64) -> Vec<Turn> {
    let mut turns = Vec::new();
    let mut count = 0;
    while count < lists && (turns.len() as u64) < TURNS {
        let mut turn = turn(prng, ROOM);
        turn.lists.retain(|told| call(told).is_some());
        count += turn.lists.len() as u64;
        turns.push(turn);
    }
    turns
}

fn write_calls(folder: &Path, turns: &[Turn]) -> io::Result<()> {
    let mut script = Script::create(folder, "writer")?;
    for turn in turns {
        script.line(turn.lent.words.call())?;
        script.lines(turn.lists.iter().filter_map(call))?;
    }
    script.finish()
}

fn run(folder: &Path, command: &[String]) -> io::Result<()> {
    let calls = File::open(folder.join("writer.calls"))?;
    let answers = File::create(folder.join("writer.answers"))?;
    let status = Command::new(&command[0]).args(&command[1..]).stdin(calls).stdout(answers).status()?;
    if !status.success() {
        eprintln!("writer: {} ended with {status}", command[0]);
    }
    Ok(())
}

fn judge_answers(folder: &Path, turns: &[Turn], judge: &mut Judge) -> io::Result<()> {
    let mut answers = BufReader::new(File::open(folder.join("writer.answers"))?).lines();
    let mut next = || answers.next().transpose().map(Option::unwrap_or_default);
    for turn in turns {
        let (words, lent) = (&turn.lent.words, next()?);
        let shape = oracle::table::lend(&words.entries, &words.parts);
        for told in &turn.lists {
            let line = next()?;
            match answer(&line) {
                Some((answer, after)) => judge.judge(turn.lent.passed.as_ref(), told, (answer, &after)),
                None => judge.differ(told, format!("no answer: {line:.100}")),
            }
            if lent != shape {
                judge.differ(told, format!("the table: {lent:.100}, not {shape}"));
            }
        }
    }
    Ok(())
}

/// `W n HEX` or `X n HEX`.
fn answer(line: &str) -> Option<(Result<u64, u64>, Vec<u8>)> {
    let fields: Vec<&str> = line.split(' ').collect();
    let [kind, number, after] = fields[..] else { return None };
    let number = number.parse().ok()?;
    let answer = match kind {
        "W" => Ok(number),
        "X" => Err(number),
        _ => return None,
    };
    Some((answer, bytes(after)?))
}

fn main() -> io::Result<ExitCode> {
    let arguments: Vec<String> = std::env::args().skip(1).collect();
    let [folder, lists, seed, command @ ..] = &arguments[..] else { panic!("usage: writer FOLDER LISTS SEED COMMAND..") };
    let (folder, lists): (&Path, u64) = (Path::new(folder), lists.parse().expect("LISTS"));
    let mut prng = Prng::new(seed.parse().expect("SEED"));
    let mut judge = Judge::default();
    let mut done = 0;
    while done < lists {
        let turns = turns(&mut prng, lists - done);
        done += turns.iter().map(|turn| turn.lists.len() as u64).sum::<u64>();
        write_calls(folder, &turns)?;
        run(folder, command)?;
        judge_answers(folder, &turns, &mut judge)?;
    }
    judge.report("scripts");
    Ok(ExitCode::from(u8::from(judge.differences > 0)))
}
