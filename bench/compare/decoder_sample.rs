//! The sample of the decoder's calls: whole sessions, from a fresh or a wholly set record on, each with its table.

use crate::{answered, is_sampled, Answered, SHORT_SCRIPT};
use std::collections::{BTreeSet, HashMap};
use std::io;
use std::path::Path;

const OF_EACH_CLASS: usize = 1;
const LONGEST_SAMPLED: usize = 500;
const MOST_CALLS: usize = 40;
const FIELDS: [&str; 7] = ["a=", "m=", "p=", "s=", "f=", "O=", "W="];

/// The table that is lent when the session begins, and the calls.
struct Session {
    table: (String, String),
    calls: Vec<Answered>,
}

pub fn sample(folder: &Path, names: &[String]) -> io::Result<Vec<Answered>> {
    let mut picked = Vec::new();
    let mut others = Vec::new();
    for name in names {
        let all = answered(folder, name)?;
        let is_whole = all.len() <= SHORT_SCRIPT;
        let heap = if is_whole { &mut picked } else { &mut others };
        heap.extend(sessions(all).into_iter().filter(is_taken));
    }
    picked.extend(of_each_class(others));
    Ok(with_tables(picked))
}

fn sessions(all: Vec<Answered>) -> Vec<Session> {
    let mut sessions: Vec<Session> = Vec::new();
    let mut table = ("table - -".to_string(), "ok".to_string());
    for answered in all {
        if is_begin(&answered) {
            sessions.push(Session {
                table: table.clone(),
                calls: Vec::new(),
            });
        }
        if is_lent(&answered) {
            table = (answered.call.clone(), answered.answer.clone());
        }
        if let Some(session) = sessions.last_mut() {
            session.calls.push(answered);
        }
    }
    for session in &mut sessions {
        let end = session.calls.iter().rposition(|answered| !is_lent(answered));
        session.calls.truncate(end.map_or(0, |end| end + 1));
    }
    sessions
}

fn is_begin(Answered { call, answer, .. }: &Answered) -> bool {
    let is_whole_set = || FIELDS.iter().all(|field| call.contains(&format!(" {field}")));
    answer == "ok" && (call == "new" || call.starts_with("set ") && is_whole_set())
}

fn is_lent(Answered { call, answer, .. }: &Answered) -> bool {
    call.starts_with("table ") && answer != "BADLINE"
}

fn is_taken(session: &Session) -> bool {
    session.table.0.len() <= LONGEST_SAMPLED
        && session.calls.len() <= MOST_CALLS
        && session
            .calls
            .iter()
            .all(|answered| is_sampled(answered, LONGEST_SAMPLED))
}

/// Takes the session that has most of what is still wanted for its calls, until nothing is wanted.
fn of_each_class(sessions: Vec<Session>) -> Vec<Session> {
    let mut numbers: HashMap<String, usize> = HashMap::new();
    let classes: Vec<BTreeSet<usize>> = sessions
        .iter()
        .map(|session| {
            classes(session)
                .into_iter()
                .map(|class| number(&mut numbers, class))
                .collect()
        })
        .collect();
    let mut wanted = vec![0; numbers.len()];
    for class in classes.iter().flatten() {
        wanted[*class] = OF_EACH_CLASS.min(wanted[*class] + 1);
    }
    let mut picked = BTreeSet::new();
    while let Some(place) = best(&sessions, &classes, &wanted, &picked) {
        picked.insert(place);
        classes[place]
            .iter()
            .for_each(|class| wanted[*class] = wanted[*class].max(1) - 1);
    }
    let is_picked = |(place, session)| picked.contains(&place).then_some(session);
    sessions.into_iter().enumerate().filter_map(is_picked).collect()
}

fn number(numbers: &mut HashMap<String, usize>, class: String) -> usize {
    let next = numbers.len();
    *numbers.entry(class).or_insert(next)
}

/// The first of those with the greatest gain for a call.
fn best(
    sessions: &[Session],
    classes: &[BTreeSet<usize>],
    wanted: &[usize],
    picked: &BTreeSet<usize>,
) -> Option<usize> {
    let mut best = None;
    let mut most = 0;
    for (place, session) in sessions.iter().enumerate() {
        let gain = classes[place].iter().filter(|class| wanted[**class] > 0).count();
        let worth = 1_000 * gain / (session.calls.len() + 1);
        if worth > most && !picked.contains(&place) {
            (best, most) = (Some(place), worth);
        }
    }
    best
}

/// Of each call: its name, of a `set` the counts too, the kind of its answer, and the kind of the answer before it.
fn classes(session: &Session) -> Vec<String> {
    let mut before = String::new();
    let mut classes = Vec::new();
    for answered in &session.calls {
        let kind = kind(&answered.answer);
        let name = answered.call.split(' ').next().unwrap_or_default();
        let input = if answered.call.ends_with(" -") { "none" } else { "some" };
        let counts = counts_set(&answered.call);
        classes.push(format!("{name}{counts} {input} {kind} {before}"));
        before = kind;
    }
    classes
}

/// Where the greatest count of the open masters stands, and that of the waiting Ends, if the call sets any.
fn counts_set(call: &str) -> String {
    let field = |name: &str| call.split(' ').find_map(|word| word.strip_prefix(name));
    let position: u64 = field("p=").and_then(|position| position.parse().ok()).unwrap_or(0);
    let place = |counts: &str| {
        let greatest = counts.split(',').filter_map(|count| count.parse().ok()).max();
        greatest.map_or("", |greatest: u64| match greatest {
            0 => "0",
            _ if greatest < position => "<",
            _ if greatest == position => "=",
            _ => ">",
        })
    };
    ["C=", "V="]
        .map(|name| field(name).map_or_else(String::new, |counts| format!(" {name}{}", place(counts))))
        .concat()
}

/// The first word; of an End whether it had no child, one or more; of a refusal the number too, and of 23 which fields
/// are given.
fn kind(answer: &str) -> String {
    let mut words = answer.split(' ');
    match words.next() {
        Some("X") => {
            let given = |word: &str| if word.ends_with("=-") { '-' } else { '+' };
            let number = words.next().unwrap_or_default();
            format!("X {number} {}", words.skip(2).map(given).collect::<String>())
        }
        Some("E") => match words.find_map(|word| word.strip_prefix("count=")) {
            Some(count @ ("0" | "1")) => format!("E {count}"),
            _ => "E more".to_string(),
        },
        word => word.unwrap_or_default().to_string(),
    }
}

/// Before a session the table that it needs, where another is lent.
fn with_tables(sessions: Vec<Session>) -> Vec<Answered> {
    let mut lent = String::new();
    let mut all = Vec::new();
    for session in sessions {
        let (call, answer) = session.table;
        if call != lent {
            lent = call.clone();
            all.push(Answered {
                call,
                answer,
                class: String::new(),
            });
        }
        for answered in session.calls {
            if is_lent(&answered) {
                lent = answered.call.clone();
            }
            all.push(answered);
        }
    }
    all
}
