// Defines what the main processor's end may rely on of keys 3, 4 and 5. That is the value when a lookup was put out, or a newer one, and
// that of its own set that was answered.
// Assumes the hypotheses `WireUnder`, `SetsInOrder` and `GoesOn` of `never-replaced`, `value-asked` and `set-then-got`.

use crate::claims::{Claim, Claims};
use crate::faults::Fault;
use crate::heard::{lookup_of, requests, set_of, Heard, Turn, KEYS};
use crate::lists::{fitted, Value};
use crate::model::{Message, Settings};
use crate::tally::tally;

tally! {
    anew: "lookups answered with the value of a set, which a recovery had sent anew",
    twice: "lookups answered with the value of a set, which was read more than once",
    too_long: "lookups answered with result 3, the value of the set being longer",
}

/// The newest set of a key that the main processor's end put out as its caller's request.
struct Set {
    value: Vec<u8>,
    /// The sets of the key that were read since, and how often this one was.
    turn: Turn,
    read: u64,
    /// The number under which it was first put out, and whether a later one is its answer's.
    first: u64,
    anew: bool,
    /// Its answer was handed out with result 0, with the hypotheses of its number.
    answered: bool,
}

/// What is known of a key since the main processor's end was started.
#[derive(Default)]
struct Key {
    turn: Turn,
    /// The numbers under which a set of it was outstanding.
    numbers: Vec<u64>,
    set: Option<Set>,
}

/// The caller's lookup that is outstanding.
struct Lookup {
    place: usize,
    most: usize,
    /// The value when it was put out, and the number of the last set of the key that had been read.
    value: Value,
    newest: u64,
    /// The values of the sets of the key with a higher number that were read since.
    newer: Vec<Value>,
    /// `WireUnder` of every number under which a set of the key was outstanding by then.
    answered: bool,
}

#[derive(Default)]
pub struct Values {
    keys: [Key; KEYS],
    lookup: Option<Lookup>,
    /// The supervisor was started, or accepted a restore, since the main processor's end was started.
    changed: bool,
    pub fault: Option<Fault>,
    pub tally: Tally,
}

impl Values {
    pub fn main_started(&mut self) {
        self.keys = Default::default();
        self.lookup = None;
        self.changed = false;
    }

    /// The supervisor's start, or a restore that it accepted.
    pub fn settings_changed(&mut self) {
        if self.fault != Some(Fault::AskedRestored) {
            self.changed = true;
        }
        if self.fault != Some(Fault::GotRestored) {
            self.keys.iter_mut().for_each(|key| key.set = None);
        }
    }

    /// The caller's request is put out under this number, at which the supervisor holds these settings.
    pub fn asked(&mut self, number: u64, command: u8, data: &[u8], settings: &Settings, heard: &Heard) {
        let own = |set: &Set| self.fault == Some(Fault::GotOwn) && set.answered;
        if let Some(place) = set_of(command, data).filter(|&place| !self.keys[place].set.as_ref().is_some_and(own)) {
            let set = Set { value: data[1..].to_vec(), turn: Turn::default(), read: 0, first: number, anew: false, answered: false };
            self.keys[place].set = Some(set);
        }
        self.lookup = lookup_of(command, data).map(|(place, most)| {
            let Key { turn, numbers, .. } = &self.keys[place];
            let answered = self.fault == Some(Fault::SetsUnanswered) || numbers.iter().all(|&number| heard.wire_under(number));
            Lookup { place, most, value: settings[place].value.clone(), newest: turn.last(), newer: Vec::new(), answered }
        });
    }

    /// The caller's request is outstanding under this number.
    pub fn outstanding(&mut self, number: u64, command: u8, data: &[u8]) {
        let Some(place) = set_of(command, data) else { return };
        let key = &mut self.keys[place];
        if key.numbers.last() != Some(&number) {
            key.numbers.push(number);
        }
    }

    /// The supervisor has read a good message; whether the main processor's end had put it out.
    pub fn read(&mut self, message: &Message, put_out: bool) {
        let Some(place) = set_of(message.command, &message.data).filter(|_| requests(message)) else { return };
        let key = &mut self.keys[place];
        let (number, ours) = if self.fault == Some(Fault::AskedOrder) { (key.turn.last().max(message.sequence), true) } else { (message.sequence, put_out) };
        key.turn.read(number, ours);
        if let Some(lookup) = self.lookup.as_mut().filter(|lookup| lookup.place == place && lookup.newest < message.sequence) {
            lookup.newer.push(Some(message.data[1..].to_vec()));
        }
        if let Some(set) = &mut key.set {
            set.read += u64::from(put_out && message.sequence >= set.first);
            let others = self.fault == Some(Fault::GotOthers) && !put_out;
            let late = self.fault == Some(Fault::GotOrder) && put_out;
            if !others && !late {
                set.turn.read(message.sequence, put_out);
            }
        }
    }

    /// The answer to the caller's request was handed out under this number.
    pub fn answered(&mut self, number: u64, request: (u8, &[u8]), data: &[u8], heard: &Heard, claims: &mut Claims) -> Result<(), String> {
        let (command, asked) = request;
        if let Some(set) = set_of(command, asked).and_then(|place| self.keys[place].set.as_mut()) {
            set.answered = data == [0] && heard.wire_under(number);
            set.anew = number != set.first;
        }
        let Some(lookup) = self.lookup.take() else { return Ok(()) };
        let key = &self.keys[lookup.place];
        let in_order = !self.changed && key.turn.kept() && heard.wire_under(number);
        let then = same(&fitted(lookup.most, &lookup.value), data, "the value that the key had as the lookup was put out");
        let newer = lookup.newer.iter().any(|value| fitted(lookup.most, value) == data);
        claims.settle(Claim::NeverReplaced, in_order, if newer { Ok(()) } else { then.clone() })?;
        claims.settle(Claim::ValueAsked, in_order && lookup.answered, then)?;
        let Some(set) = key.set.as_ref().filter(|set| set.answered) else { return Ok(()) };
        let held = set.turn.kept() && heard.wire_under(number);
        let tally = &mut self.tally;
        tally.anew += u64::from(held && set.anew);
        tally.twice += u64::from(held && set.read > 1);
        tally.too_long += u64::from(held && set.value.len() > lookup.most);
        let value = Some(set.value.clone());
        claims.settle(Claim::SetThenGot, held, same(&fitted(lookup.most, &value), data, "the value of the set that was answered"))
    }
}

fn same(expected: &[u8], data: &[u8], what: &str) -> Result<(), String> {
    let kept = |bytes: &[u8]| bytes[..bytes.len().min(40)].to_vec();
    if expected == data { Ok(()) } else { Err(format!("{:02x?} is handed out, and {what} gives {:02x?}", kept(data), kept(expected))) }
}
