// Defines one direction of the wire: bytes in order, with faults at seeded places, and frames told apart at their 00.
// Assumes the line layer of the model for what a frame is.

use crate::model::{judge, Failure, Message, LONGEST_FORM};
use crate::random::Random;
use std::collections::VecDeque;

/// The bytes since the last 00.
#[derive(Clone, Default)]
pub struct Frames(Vec<u8>);

impl Frames {
    /// A piece that has no 00 but as its last byte; the bytes before that 00 if they are a frame that is not empty.
    pub fn feed(&mut self, piece: &[u8]) -> Option<Vec<u8>> {
        let closed = piece.last() == Some(&0);
        let more = &piece[..piece.len() - usize::from(closed)];
        let room = (LONGEST_FORM + 1).saturating_sub(self.0.len());
        self.0.extend_from_slice(&more[..more.len().min(room)]);
        if closed { Some(std::mem::take(&mut self.0)).filter(|form| !form.is_empty()) } else { None }
    }

    pub fn between(&self) -> bool {
        self.0.is_empty()
    }
}

/// The pieces of a stream that end with a 00, and what is behind the last.
pub fn cut(bytes: &[u8]) -> impl Iterator<Item = &[u8]> {
    bytes.split_inclusive(|&byte| byte == 0)
}

/// The line layer's tests of a frame that is not empty.
pub fn judged(form: &[u8]) -> Result<Message, Failure> {
    judge(form, form.len() > LONGEST_FORM)
}

/// The faults, in the order of `Wire::faults`.
pub const FAULTS: [&str; 10] = [
    "bytes lost", "runs of bytes lost", "bits changed", "bytes changed", "bytes turned to 00", "bytes added", "00 added in a frame", "delays", "00 added between frames",
    "frames again",
];

/// The kinds of wire.
#[derive(Clone, Copy, Debug, PartialEq, Eq)]
pub enum Kind {
    Bad,
    InOrder,
    Second,
}

pub const KINDS: [(Kind, &str, &str); 3] = [
    (Kind::Bad, "bad", "a bad wire"),
    (Kind::InOrder, "in-order", "a bad wire that keeps the order"),
    (Kind::Second, "second", "a bad wire with a second program"),
];

/// How many frames from before can come again.
const EARLIER: usize = 8;

pub struct Wire {
    kind: Kind,
    bytes: VecDeque<u8>,
    /// Nothing comes out before this turn.
    still: u64,
    /// Bytes until the next fault, and how many these are in the mean.
    gap: usize,
    mean: usize,
    /// Bytes still to lose.
    losing: usize,
    /// The frame that is being put on it, and some whole frames from before.
    frame: Vec<u8>,
    earlier: Vec<Vec<u8>>,
    pub faults: [u64; FAULTS.len()],
    pub carried: u64,
}

impl Wire {
    pub fn new(kind: Kind) -> Wire {
        Wire { kind, bytes: VecDeque::new(), still: 0, gap: 0, mean: 400, losing: 0, frame: Vec::new(), earlier: Vec::new(), faults: [0; FAULTS.len()], carried: 0 }
    }

    pub fn put(&mut self, bytes: &[u8], turn: u64, random: &mut Random) {
        for &byte in bytes {
            self.carried += 1;
            self.frame.push(byte);
            if self.losing > 0 {
                self.losing -= 1;
            } else if self.gap > 0 {
                self.gap -= 1;
                self.bytes.push_back(byte);
            } else {
                self.gap = random.below(2 * self.mean);
                self.fault(byte, turn, random);
            }
            if byte == 0 {
                self.frame_put(random);
            }
        }
    }

    fn fault(&mut self, byte: u8, turn: u64, random: &mut Random) {
        let which = random.below(8);
        self.faults[which] += 1;
        match which {
            0 => (),
            1 => self.losing = random.below(60),
            2 => self.bytes.push_back(byte ^ 1 << random.below(8)),
            3 => self.bytes.push_back(random.byte()),
            4 => self.bytes.push_back(0),
            5 => self.bytes.extend([random.byte(), byte]),
            6 => self.bytes.extend([0, byte]),
            _ => {
                self.still = turn + random.below(200) as u64;
                self.bytes.push_back(byte);
            }
        }
    }

    /// Behind a frame: more 00, a frame from before again, and now and then a better or a worse wire.
    fn frame_put(&mut self, random: &mut Random) {
        let frame = std::mem::take(&mut self.frame);
        let which = random.below(200);
        if which < 6 {
            self.faults[8] += 1;
            self.bytes.extend(&[0; 3][which % 3..]);
        } else if which < 10 && self.kind != Kind::InOrder {
            if let Some(again) = self.earlier.get(random.below(self.earlier.len())) {
                self.faults[9] += 1;
                self.bytes.extend(again);
            }
        } else if which < 11 {
            self.mean = random.pick(&[200, 800, 4_000, 20_000]);
        }
        if self.earlier.len() < EARLIER {
            self.earlier.push(frame);
        } else {
            self.earlier[random.below(EARLIER)] = frame;
        }
    }

    /// What the other end gets in this turn, cut anywhere.
    pub fn get(&mut self, turn: u64, random: &mut Random) -> Vec<u8> {
        if turn < self.still || self.bytes.is_empty() {
            return Vec::new();
        }
        let held = self.bytes.len();
        let (few, some) = (1 + random.below(12), 1 + random.below(held));
        let count = random.pick(&[held, held, some, few, 1]);
        self.bytes.drain(..count.min(held)).collect()
    }

    /// Nothing is on its way.
    pub fn clear_of_bytes(&self) -> bool {
        self.bytes.is_empty()
    }

    /// The whole frame that comes next, with its 00.
    pub fn next_frame(&self) -> Option<Vec<u8>> {
        let end = self.bytes.iter().position(|&byte| byte == 0)?;
        Some(self.bytes.iter().take(end + 1).copied().collect())
    }

    /// Puts other bytes in the place of that many that come next.
    pub fn replace(&mut self, count: usize, bytes: &[u8]) {
        self.bytes.drain(..count);
        for &byte in bytes.iter().rev() {
            self.bytes.push_front(byte);
        }
    }

    pub fn hold(&mut self, until: u64) {
        self.still = until;
    }

    /// Throws away what is on its way.
    pub fn clear(&mut self) {
        self.bytes.clear();
        self.earlier.clear();
        self.frame.clear();
        self.losing = 0;
    }
}
