//! The sample of the calls on tables: a `table`, and what is asked of it until the next.

use crate::{answered, is_sampled, Answered, SHORT_SCRIPT};
use std::cmp::Reverse;
use std::collections::{BTreeMap, HashMap, HashSet};
use std::io;
use std::path::Path;

const OF_EACH_CLASS: usize = 2;
const LONGEST_SAMPLED: usize = 2_000;

/// The calls on one table, first the one that lends it; before a script's first table only those that ask the empty
/// one.
type Group = Vec<Answered>;

pub fn sample(folder: &Path, names: &[String]) -> io::Result<Vec<Answered>> {
    let mut picked = Vec::new();
    let mut others = Vec::new();
    for name in names {
        let all = answered(folder, name)?;
        if all.len() <= SHORT_SCRIPT {
            picked.extend(groups(all).into_iter().flatten());
        } else {
            others.extend(groups(all));
        }
    }
    picked.extend(of_each_class(others));
    Ok(picked)
}

/// A group whose table is too long is left out.
fn groups(all: Vec<Answered>) -> Vec<Group> {
    let mut groups = vec![Group::new()];
    for answered in all {
        if is_lent(&answered) {
            groups.push(Group::new());
        }
        groups.last_mut().expect("a group").push(answered);
    }
    groups.retain(|group| group.first().is_some_and(is_short));
    for group in &mut groups {
        group.retain(is_short);
    }
    groups
}

fn is_lent(Answered { call, answer, .. }: &Answered) -> bool {
    call.starts_with("table ") && answer != "BADLINE"
}

fn is_short(answered: &Answered) -> bool {
    is_sampled(answered, LONGEST_SAMPLED)
}

/// Takes the group that has most of what is still wanted, a shorter table before a longer one, until nothing is wanted.
fn of_each_class(mut groups: Vec<Group>) -> Vec<Answered> {
    groups.iter_mut().for_each(once_of_each_class);
    let mut wanted = wanted(&groups);
    let mut picked: BTreeMap<usize, Group> = BTreeMap::new();
    while let Some((place, _)) = groups
        .iter()
        .enumerate()
        .filter(|(_, group)| gain(group, &wanted) > 0)
        .max_by_key(|(_, group)| (gain(group, &wanted), Reverse(group[0].call.len())))
    {
        picked.insert(place, take(&mut groups[place], &mut wanted));
    }
    picked.into_values().flatten().collect()
}

fn once_of_each_class(group: &mut Group) {
    let mut seen = HashSet::new();
    group.retain(|answered| seen.insert(answered.class.clone()));
}

/// How many calls of each class are wanted.
fn wanted(groups: &[Group]) -> HashMap<String, usize> {
    let mut wanted: HashMap<String, usize> = HashMap::new();
    for answered in groups.iter().flatten() {
        let count = wanted.entry(answered.class.clone()).or_default();
        *count = (*count + 1).min(OF_EACH_CLASS);
    }
    wanted
}

fn gain(group: &Group, wanted: &HashMap<String, usize>) -> usize {
    group.iter().filter(|answered| wanted[&answered.class] > 0).count()
}

/// Takes the table and the wanted calls.
fn take(group: &mut Group, wanted: &mut HashMap<String, usize>) -> Group {
    let mut taken = Group::new();
    for (place, answered) in std::mem::take(group).into_iter().enumerate() {
        let count = wanted.get_mut(&answered.class).expect("a class of the groups");
        if place == 0 || *count > 0 {
            *count = count.saturating_sub(1);
            taken.push(answered);
        }
    }
    taken
}
