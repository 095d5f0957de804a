// Defines changes of a frame that no test of the line layer notices, and replies that nobody made.
// Assumes document 01's checksum and the rule of document 02's item 12.

use crate::model::{body, checksum, frame, Message, MAGIC, TOP_BIT};
use crate::random::Random;
use crate::wire::{judged, Wire};

#[derive(Clone, Copy, Debug, PartialEq, Eq)]
pub enum Missed {
    ReplyByte,
    ReplyPair,
    ReplyPair255,
    ReplyZero,
    Forged,
    OldReply,
    RequestByte,
    RequestPair,
    Late,
}

pub const ALL: [(Missed, &str); 9] = [
    (Missed::ReplyByte, "a byte 00 of a reply's data comes as ff, or ff as 00"),
    (Missed::ReplyPair, "two bytes of a reply's data change by opposite multiples of 17, 15 bytes apart"),
    (Missed::ReplyPair255, "two bytes of a reply's data, 255 bytes apart, change places"),
    (Missed::ReplyZero, "a byte 00 of a reply's data is lost where the first sum is 0"),
    (Missed::Forged, "a reply that nobody made, under the outstanding number"),
    (Missed::OldReply, "the answer to an earlier lookup comes under the outstanding number of another"),
    (Missed::RequestByte, "a byte 00 of a request's data comes as ff, or ff as 00"),
    (Missed::RequestPair, "two bytes of a request's data change by opposite multiples of 17, 15 bytes apart"),
    (Missed::Late, "bytes on their way are kept when the main processor's end is started"),
];

impl Missed {
    pub fn hits_replies(self) -> bool {
        matches!(self, Missed::ReplyByte | Missed::ReplyPair | Missed::ReplyPair255 | Missed::ReplyZero)
    }

    pub fn hits_requests(self) -> bool {
        matches!(self, Missed::RequestByte | Missed::RequestPair)
    }

    /// Changes the data at a place of chance; false where the change does not fit there.
    fn change(self, data: &mut [u8], from: usize, random: &mut Random) -> bool {
        let first = from + random.below(data.len() - from);
        match self {
            Missed::ReplyByte | Missed::RequestByte => match data.get_mut(first) {
                Some(byte) if matches!(byte, 0 | 0xff) => *byte ^= 0xff,
                _ => return false,
            },
            Missed::ReplyPair255 => {
                if first + 255 >= data.len() || data[first] == data[first + 255] {
                    return false;
                }
                data.swap(first, first + 255);
            }
            _ => {
                let more = 17 * (1 + random.below(14)) as u8;
                let (Some(up), Some(down)) = (data.get(first).and_then(|byte| byte.checked_add(more)), data.get(first + 15).and_then(|byte| byte.checked_sub(more))) else {
                    return false;
                };
                (data[first], data[first + 15]) = (up, down);
            }
        }
        true
    }

    /// Changes the whole frame that comes next on a wire, where there is one that the change fits.
    pub fn hit(self, wire: &mut Wire, random: &mut Random) {
        let Some(frame) = wire.next_frame() else { return };
        if let Some(other) = self.changed(&frame, random) {
            wire.replace(frame.len(), &other);
        }
    }

    /// Another frame that passes every test; none where the change does not fit.
    fn changed(self, bytes: &[u8], random: &mut Random) -> Option<Vec<u8>> {
        let mut message = judged(&bytes[..bytes.len() - 1]).ok()?;
        let before = sums(&message);
        // the first byte of a request's data is a key
        let from = usize::from(self.hits_requests());
        if self == Missed::ReplyZero {
            let place = (0..message.data.len()).find(|&place| message.data[place] == 0 && sums(&Message { data: message.data[..place].to_vec(), ..message.clone() }) % 256 == 0)?;
            message.data.remove(place);
        } else if message.data.len() <= from || !self.change(&mut message.data, from, random) {
            return None;
        }
        assert_eq!(before, sums(&message), "the checksum notices {self:?}");
        Some(frame(message.version, message.sequence, message.command, &message.data))
    }
}

/// A message's checksum.
fn sums(message: &Message) -> u16 {
    checksum(&body(MAGIC, message.version, message.sequence, message.command, &message.data))
}

/// A reply to a lookup under this number, made of a result and a value.
pub fn forged(number: u64, data: &[u8]) -> Vec<u8> {
    frame(1, number | TOP_BIT, 0x0a, data)
}
