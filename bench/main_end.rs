// Defines the yardsticks' main processor's end: one request outstanding, its answer, and the same bytes again.
// Assumes document 02's item 2; recoveries are not here, since no row has one.

use crate::board::Bytes;
use crate::receiver::{write, End, Head, Reader, Yardstick, LONGEST_DATA, TOP_BIT};

const LAST_NUMBER: u64 = TOP_BIT - 2;

pub struct MainEnd<Y> {
    reader: Reader<Y>,
    number: u64,
    outstanding: bool,
    unsent: bool,
    command: u8,
    data: Bytes<LONGEST_DATA>,
}

/// How many bytes of a piece were read, the answer's command and length of data where one came, and whether a frame is to go out.
pub struct Received {
    pub used: usize,
    pub answer: Option<(Head, usize)>,
    pub unsent: bool,
}

impl<Y: Yardstick> MainEnd<Y> {
    pub fn new() -> MainEnd<Y> {
        MainEnd { reader: Reader::new(), number: 0, outstanding: false, unsent: false, command: 0, data: Bytes::NONE }
    }

    /// Writes a request's frame under the next number; gives its length or a refusal.
    pub fn request(&mut self, command: u8, data: &[u8], out: &mut [u8]) -> Result<usize, u32> {
        if data.len() > LONGEST_DATA {
            return Err(9);
        }
        if self.outstanding {
            return Err(17);
        }
        if self.number >= LAST_NUMBER {
            return Err(14);
        }
        let length = write::<Y>(Head { version: Y::rules().answer_version, sequence: self.number + 1, command }, data, &[], out)?;
        self.number += 1;
        if !matches!(command, 0x01 | 0x02 | 0x06) {
            self.outstanding = true;
            self.command = command;
            self.data.set(data);
        }
        Ok(length)
    }

    /// Writes the outstanding frame where it is to go out; gives its length or a refusal.
    pub fn send(&mut self, out: &mut [u8]) -> Result<usize, u32> {
        if !self.unsent {
            return Ok(0);
        }
        let head = Head { version: Y::rules().answer_version, sequence: self.number, command: self.command };
        let length = write::<Y>(head, self.data.get(), &[], out)?;
        self.unsent = false;
        Ok(length)
    }

    /// Reads a piece up to its first 00, a frame's 4,141st byte, or its end.
    pub fn receive(&mut self, piece: &[u8]) -> Received {
        let Some(count) = self.reader.count() else {
            return Received { used: self.reader.read(piece).0, answer: None, unsent: self.unsent };
        };
        let (used, end) = self.reader.read(&piece[..piece.len().min(Y::rules().overlong - count)]);
        let mut answer = None;
        match end {
            End::More if self.reader.count().is_some() => {}
            End::Empty => {}
            End::More | End::Failure { .. } => self.unsent |= self.outstanding,
            End::Message { head, length } => {
                if self.answers(head) {
                    (self.outstanding, self.unsent) = (false, false);
                    answer = Some((head, length));
                }
            }
        }
        Received { used, answer, unsent: self.unsent }
    }

    /// Whether a good message is the answer to the outstanding request; a ground to send that again is noted.
    fn answers(&mut self, head: Head) -> bool {
        let expected = self.number | TOP_BIT;
        let failure = head.command == 0x02 && (head.sequence == expected || head.sequence == u64::MAX);
        if head.version != Y::rules().answer_version || head.sequence < TOP_BIT || failure {
            self.unsent |= self.outstanding;
            return false;
        }
        self.outstanding && head.sequence == expected
    }

    pub fn data(&self, length: usize) -> &[u8] {
        self.reader.data(length)
    }
}
