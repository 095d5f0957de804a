// Defines the values that key 5, the withdrawn-key list, has had at the supervisor, what brought each, and which of them an answer to a lookup may hold.
// Assumes documents 01 and 02: a set that succeeds, an accepted restore and a start bring a value, and nothing else does.

use crate::tally::tally;
use std::collections::hash_map::DefaultHasher;
use std::collections::HashSet;
use std::hash::{Hash, Hasher};

pub type Value = Option<Vec<u8>>;

#[derive(Clone, Copy, Debug, PartialEq, Eq)]
pub enum By {
    Start,
    Set,
    Restore,
}

struct List {
    /// When it became current.
    moment: u64,
    by: By,
    /// It had been current before, and had been replaced.
    old: bool,
    value: Value,
}

tally! {
    answers: "answers with a list or its absence",
    several: "of these, the list changed while the lookup was outstanding",
    replaced: "of these, the list had been replaced when it was handed out",
    held: "of these, the list was held when the lookup was put out",
    set: "of these, a set had brought the list since",
    restored: "of these, a restore had brought the list, or its absence, since",
    started: "of these, a start had taken the list away since",
    older: "of these, an older list that a restore had brought back",
    back_by_restore: "older lists brought back by a restore",
    back_by_set: "older lists brought back by a set whose frame came again",
}

#[derive(Default)]
pub struct Lists {
    /// In order; those replaced before the newest number was put out are left out, but for one.
    lists: Vec<List>,
    /// What the model held, each with its moment: when the newest number was put out first, and whenever it was another since.
    held: Vec<(u64, Value)>,
    /// All that were current at some time, by a hash.
    known: HashSet<u64>,
    pub tally: Tally,
}

/// An answer to a lookup of the list.
pub struct Answer<'e> {
    /// When the lookup was put out first, and when the supervisor made this answer to it.
    pub first: u64,
    pub made: Vec<u64>,
    /// The lookup's maxresponse, and the answer's data.
    pub most: usize,
    pub data: &'e [u8],
}

/// A lookup's reply by document 01.
pub fn fitted(most: usize, value: &Value) -> Vec<u8> {
    match value {
        None => vec![2],
        Some(value) if value.len() > most => vec![3],
        Some(value) => [&[0], &value[..]].concat(),
    }
}

fn hash(value: &Value) -> u64 {
    let mut hasher = DefaultHasher::new();
    value.hash(&mut hasher);
    hasher.finish()
}

impl Lists {
    pub fn brought(&mut self, moment: u64, by: By, value: Value) {
        let current = self.lists.last().is_some_and(|list| list.value == value);
        let old = !self.known.insert(hash(&value)) && value.is_some() && !current;
        self.tally.back_by_restore += u64::from(old && by == By::Restore);
        self.tally.back_by_set += u64::from(old && by == By::Set);
        self.lists.push(List { moment, by, old, value });
    }

    /// A new number is put out.
    pub fn asked(&mut self) {
        self.lists.drain(..self.lists.len().saturating_sub(2));
        self.held.clear();
    }

    /// The model's list at this moment.
    pub fn holds(&mut self, moment: u64, value: &Value) {
        if self.held.last().map(|(_, last)| last) != Some(value) {
            self.held.push((moment, value.clone()));
        }
    }

    /// The value that was current at a moment since the newest number was put out.
    pub fn at(&self, moment: u64) -> &Value {
        self.list_at(moment).map_or(&None, |list| &list.value)
    }

    /// A value that was replaced before this moment, where one is left.
    pub fn replaced_before(&self, moment: u64) -> Option<&Value> {
        match &self.lists[..] {
            [old, next, ..] if next.moment < moment => Some(&old.value),
            _ => None,
        }
    }

    fn list_at(&self, moment: u64) -> Option<&List> {
        self.lists.iter().rfind(|list| list.moment <= moment)
    }

    /// The answer is the list that was current when the lookup was carried out; against each moment until then, the list that was held at it, or one brought since.
    pub fn compare(&mut self, answer: &Answer) -> Result<(), &'static str> {
        let holds = |value: &Value| fitted(answer.most, value) == answer.data;
        if !answer.made.iter().all(|&moment| holds(self.at(moment))) {
            return Err("a list that was not current when the lookup was carried out");
        }
        if !answer.made.iter().all(|&moment| self.held.iter().all(|(seen, value)| *seen > moment || holds(self.since(*seen, value, moment)))) {
            return Err("a list that had been replaced, and that no set, restore or start has brought since");
        }
        self.count(answer);
        Ok(())
    }

    /// From a moment at which this value was held to a later one: the last value brought, or else that one.
    fn since<'l>(&'l self, seen: u64, value: &'l Value, moment: u64) -> &'l Value {
        self.list_at(moment).filter(|list| list.moment > seen).map_or(value, |list| &list.value)
    }

    fn count(&mut self, answer: &Answer) {
        let Some(list) = answer.made.last().and_then(|&moment| self.list_at(moment)) else { return };
        let (since, by, old) = (list.moment > answer.first, list.by, list.old);
        let newest = self.lists.last();
        let tally = &mut self.tally;
        tally.answers += 1;
        tally.several += u64::from(newest.is_some_and(|newest| newest.moment > answer.first));
        tally.replaced += u64::from(newest.is_some_and(|newest| fitted(answer.most, &newest.value) != answer.data));
        tally.held += u64::from(!since);
        tally.set += u64::from(since && by == By::Set);
        tally.restored += u64::from(since && by == By::Restore);
        tally.started += u64::from(since && by == By::Start);
        tally.older += u64::from(old && by == By::Restore);
    }
}
