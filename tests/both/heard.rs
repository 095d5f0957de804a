// Defines the wire's hypotheses as far as they go by numbers: requests that the main processor's end did not put out, and replies taken that the supervisor did not.
// Assumes document 01's table for reading: which messages are requests, sets of a key and alert requests.

use crate::model::{Message, LONGEST, TOP_BIT};
use std::collections::HashSet;

/// The first settings key, and how many are read back.
pub const FIRST_KEY: u8 = 3;
pub const KEYS: usize = 3;

/// Since the main processor's end was started.
#[derive(Default)]
pub struct Heard {
    /// The numbers under which the supervisor has read a request, of either version, that had not been put out.
    others: HashSet<u64>,
    /// The numbers under which a reply was taken as an answer that the supervisor had not put out.
    taken: HashSet<u64>,
    /// The numbers under which a request was outstanding, the last of them, and the number up to which it is as if all had been answered.
    outstanding: HashSet<u64>,
    last: u64,
    answered: Option<u64>,
    /// What a planted fault leaves out.
    pub requests_untested: bool,
    pub replies_untested: bool,
}

impl Heard {
    pub fn main_started(&mut self) {
        self.others.clear();
        self.taken.clear();
        self.outstanding.clear();
        (self.last, self.answered) = (0, None);
    }

    pub fn counted_on(&mut self, number: u64) {
        self.answered = Some(number);
    }

    /// A request is outstanding under this number.
    pub fn outstanding(&mut self, number: u64) {
        if self.last != number {
            self.last = number;
            self.outstanding.insert(number);
        }
    }

    /// The supervisor has read a good message that had not been put out.
    pub fn other_read(&mut self, message: &Message) {
        if matches!(message.version, 1 | 2) && !self.requests_untested {
            self.others.insert(message.sequence);
        }
    }

    /// A reply that had not been put out was taken as the answer under this number.
    pub fn other_taken(&mut self, number: u64) {
        if !self.replies_untested {
            self.taken.insert(number);
        }
    }

    /// `WireUnder` of a number.
    pub fn wire_under(&self, number: u64) -> bool {
        !self.others.contains(&number) && !self.taken.contains(&number)
    }

    /// `WireUnder` of every number under which a request was outstanding.
    pub fn wire(&self) -> bool {
        let unused = |number: &u64| !self.outstanding.contains(number) && self.answered.is_none_or(|answered| answered < *number);
        self.taken.is_empty() && self.others.iter().all(unused)
    }
}

/// A request that passes the table as far as version and number go.
pub fn requests(message: &Message) -> bool {
    matches!(message.version, 1 | 2) && message.sequence & TOP_BIT == 0
}

/// The place of the settings key that a set names, where it is one that is read back and takes a value of that length.
pub fn set_of(command: u8, data: &[u8]) -> Option<usize> {
    let place = usize::from(data.first()?.checked_sub(FIRST_KEY)?);
    (command == 0x10 && place < KEYS && data.len() - 1 <= LONGEST[place]).then_some(place)
}

/// The place of the settings key that a lookup names, where it is one that is read back, and its maxresponse.
pub fn lookup_of(command: u8, data: &[u8]) -> Option<(usize, usize)> {
    let &[key, low, high] = data else { return None };
    let place = usize::from(key.checked_sub(FIRST_KEY)?);
    (command == 0x0e && place < KEYS).then_some((place, usize::from(u16::from_le_bytes([low, high]))))
}

/// Whether frames are read in the order in which they were put out: one may come again, but not behind a later one.
pub struct Turn {
    last: u64,
    kept: bool,
}

impl Default for Turn {
    fn default() -> Turn {
        Turn { last: 0, kept: true }
    }
}

impl Turn {
    /// A frame of those was read under this number; whether it had been put out.
    pub fn read(&mut self, number: u64, put_out: bool) {
        self.kept &= put_out && number >= self.last;
        self.last = number;
    }

    pub fn kept(&self) -> bool {
        self.kept
    }

    /// The number of the last one read; 0 where there is none.
    pub fn last(&self) -> u64 {
        self.last
    }
}
