// Defines what the two yardsticks in Rust share of the line layer: the message, the writer and the reader's tests.
// Assumes documents 01 and 02. It tests nothing of its own state, where the library's calls test theirs for 12.

use std::marker::PhantomData;

const MAGIC: u32 = 0x01DE_19CC;
const LONGEST_FORM: usize = 4140;
const SHORTEST_MESSAGE: usize = 19;
const LONGEST_MESSAGE: usize = 4123;
/// A message of at most so many bytes is put together in an array of its own, as the library does it.
const SHORT_MESSAGE: usize = 64;
pub const LONGEST_DATA: usize = 4104;
pub const TOP_BIT: u64 = 1 << 63;

/// Where the yardsticks differ: the work for each byte.
pub trait Yardstick {
    const NAME: &'static str;

    fn rules() -> Rules {
        Rules::PAPERS
    }

    fn checksum(body: &[u8]) -> u16;

    /// Writes the form and its 00; gives the length, or nothing where it does not fit.
    fn encode(message: &[u8], out: &mut [u8]) -> Option<usize>;

    /// Decodes a form in place; gives the length of what it means.
    fn decode(form: &mut [u8]) -> Option<usize>;

    /// Keeps the piece's bytes up to its end or its first 00; gives the offset of that.
    fn gather(frame: &mut Frame, piece: &[u8]) -> Option<usize>;
}

/// Numbers of the papers that both ends go by; a planted fault changes one.
#[derive(Clone, Copy)]
pub struct Rules {
    /// There are no keys from this one on.
    pub keys: u8,
    /// Nobody may look this key up.
    pub set_only: u8,
    /// A lookup's reply has the edition in this version.
    pub edition_version: u32,
    /// An item with this result has its data in the reply.
    pub item_result: u8,
    pub most_alerts: usize,
    /// An alert request under the same number gets the same reply.
    pub resends: bool,
    pub most_kept: usize,
    /// An image has the settings up to this key.
    pub last_saved: u8,
    /// A record's key in an image is at least so far above the one before.
    pub key_step: u8,
    /// The main processor's end asks in this version, and takes answers of it.
    pub answer_version: u32,
    /// The main processor's end takes a frame's byte of this number, where no 00 has come, as a ground to send again.
    pub overlong: usize,
}

impl Rules {
    pub const PAPERS: Rules = Rules {
        keys: 7,
        set_only: 6,
        edition_version: 2,
        item_result: 0,
        most_alerts: 8,
        resends: true,
        most_kept: 512,
        last_saved: 5,
        key_step: 1,
        answer_version: 1,
        overlong: LONGEST_FORM + 1,
    };
}

/// The bytes of a frame that have come, and whether there were more than a form has.
pub struct Frame {
    pub bytes: [u8; LONGEST_FORM],
    pub count: usize,
    pub long: bool,
}

/// What stands ahead of a message's data.
#[derive(Clone, Copy, Debug, PartialEq, Eq)]
pub struct Head {
    pub version: u32,
    pub sequence: u64,
    pub command: u8,
}

/// Writes the frame of a message with these data, in two parts; gives its length or a refusal.
pub fn write<Y: Yardstick>(head: Head, first: &[u8], rest: &[u8], out: &mut [u8]) -> Result<usize, u32> {
    let size = SHORTEST_MESSAGE + first.len() + rest.len();
    if size > LONGEST_MESSAGE {
        return Err(9);
    }
    if size <= SHORT_MESSAGE {
        write_by::<Y>(&mut [0; SHORT_MESSAGE][..size], head, first, rest, out)
    } else {
        write_by::<Y>(&mut [0; LONGEST_MESSAGE][..size], head, first, rest, out)
    }
}

/// The same with the room that the message is put together in.
fn write_by<Y: Yardstick>(message: &mut [u8], head: Head, first: &[u8], rest: &[u8], out: &mut [u8]) -> Result<usize, u32> {
    let end = 17 + first.len() + rest.len();
    message[..4].copy_from_slice(&MAGIC.to_le_bytes());
    message[4..8].copy_from_slice(&head.version.to_le_bytes());
    message[8..16].copy_from_slice(&head.sequence.to_le_bytes());
    message[16] = head.command;
    message[17..17 + first.len()].copy_from_slice(first);
    message[17 + first.len()..end].copy_from_slice(rest);
    let sums = Y::checksum(&message[..end]);
    message[end..end + 2].copy_from_slice(&sums.to_le_bytes());
    Y::encode(message, out).ok_or(8)
}

pub struct Reader<Y> {
    frame: Frame,
    yardstick: PhantomData<Y>,
}

#[derive(Debug, PartialEq, Eq)]
pub enum End {
    More,
    Empty,
    Message { head: Head, length: usize },
    Failure { reason: u8, sequence: Option<u64> },
}

impl<Y: Yardstick> Reader<Y> {
    pub fn new() -> Reader<Y> {
        Reader { frame: Frame { bytes: [0; LONGEST_FORM], count: 0, long: false }, yardstick: PhantomData }
    }

    /// Reads up to the piece's end or its first 00.
    pub fn read(&mut self, piece: &[u8]) -> (usize, End) {
        match Y::gather(&mut self.frame, piece) {
            Some(place) => (place + 1, self.end()),
            None => (piece.len(), End::More),
        }
    }

    fn end(&mut self) -> End {
        let (count, long) = (self.frame.count, self.frame.long);
        self.frame.count = 0;
        self.frame.long = false;
        if count == 0 {
            return End::Empty;
        }
        let length = if long { None } else { Y::decode(&mut self.frame.bytes[..count]) };
        let Some(length) = length else { return End::Failure { reason: 1, sequence: None } };
        if !(SHORTEST_MESSAGE..=LONGEST_MESSAGE).contains(&length) {
            return End::Failure { reason: 3, sequence: None };
        }
        let (body, sums) = self.frame.bytes[..length].split_at(length - 2);
        let sequence = u64::from_le_bytes(body[8..16].try_into().unwrap());
        if u16::from_le_bytes(sums.try_into().unwrap()) != Y::checksum(body) {
            return End::Failure { reason: 2, sequence: Some(sequence) };
        }
        if body[..4] != MAGIC.to_le_bytes() {
            return End::Failure { reason: 4, sequence: Some(sequence) };
        }
        let version = u32::from_le_bytes(body[4..8].try_into().unwrap());
        End::Message { head: Head { version, sequence, command: body[16] }, length: length - SHORTEST_MESSAGE }
    }

    /// How many bytes of a frame have come; nothing where they are more than a form has.
    pub fn count(&self) -> Option<usize> {
        (!self.frame.long).then_some(self.frame.count)
    }

    pub fn data(&self, length: usize) -> &[u8] {
        &self.frame.bytes[17..17 + length]
    }

    /// Clears the bytes of frames.
    pub fn wipe(&mut self) {
        self.frame.bytes.fill(0);
    }
}
