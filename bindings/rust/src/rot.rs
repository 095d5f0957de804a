//! Defines the root-of-trust link: reading and writing its messages of version 1.
//! Assumes the C functions of `raw`.

use crate::limits::{ROT_ECHOED, ROT_HEADER_LENGTH, ROT_MESSAGE, ROT_NOTHING};
pub use crate::limits::{ROT_LONGEST_MESSAGE as LONGEST_MESSAGE, ROT_LONGEST_PAYLOAD as LONGEST_PAYLOAD};
use crate::numbers::numbered;
use crate::{checked, done, first, lent, lent_mut, part, raw, ruled_out, Refusal};

numbered! {
    /// A message's type.
    Type as u8, "type":
    ErrorResponse = 1, "error response";
    EchoRequest = 2, "echo request";
    EchoResponse = 3, "echo response";
    StatusRequest = 4, "status request";
    StatusResponse = 5, "status response";
    SprocketsRequest = 6, "sprockets request";
    SprocketsResponse = 7, "sprockets response";
    SinkRequest = 8, "sink request";
    SinkResponse = 9, "sink response";
}

/// What came over the link.
#[derive(Clone, Copy, Debug, PartialEq, Eq)]
#[non_exhaustive]
#[must_use]
pub enum Received<'i, 'o> {
    /// Protocol 0.
    Nothing,
    /// A message. An echo request is not handed out.
    Message(Message<'i>),
    /// The answer to an echo request, which is to be sent.
    Echoed(&'o [u8]),
}

/// A message.
#[derive(Clone, Copy, Debug, PartialEq, Eq)]
#[non_exhaustive]
#[must_use]
pub struct Message<'i> {
    /// Its type.
    pub kind: Type,
    /// Its payload, a part of the input.
    pub payload: &'i [u8],
}

/// Reads what came: one message from the first byte on. `out` is for the answer to an echo request; a room of `LONGEST_MESSAGE` is always enough.
///
/// # Errors
///
/// The first of `NoInput`, `BadProtocol`, `ShortHeader`, `PayloadTooLong`, `CutShort`, `BadCrc` and `BadType`; then `NoRoom`, where `out` is shorter than
/// the answer to an echo request.
/// ```
/// use oatcastle::rot::{read, Received, LONGEST_MESSAGE};
///
/// let echo_request = [1, 2, 1, 0, 35, 236, 249, 41, 9];
/// let mut out = [0; LONGEST_MESSAGE];
/// assert_eq!(read(&echo_request, &mut out), Ok(Received::Echoed(&[1, 3, 1, 0, 0x94, 0x76, 0x94, 0xf5, 9])));
/// ```
pub fn read<'i, 'o>(input: &'i [u8], out: &'o mut [u8]) -> Result<Received<'i, 'o>, Refusal> {
    let mut answer = raw::RotReadAnswer::default();
    let (given, room) = (lent(input), lent_mut(out));
    // SAFETY: each pointer is valid for the length behind it, and what is written overlaps nothing else.
    checked(unsafe { raw::oatcastle_rot_read(given.0, given.1, room.0, room.1, &mut answer) })?;
    Ok(match answer.kind {
        ROT_NOTHING => Received::Nothing,
        ROT_MESSAGE => Received::Message(Message {
            kind: Type::of(answer.r#type).unwrap_or_else(|| ruled_out()),
            payload: part(input, ROT_HEADER_LENGTH, answer.length as usize),
        }),
        ROT_ECHOED => Received::Echoed(first(out, answer.length)),
        _ => ruled_out(),
    })
}

/// Copies to the room the payload of the message that `read` hands out; nothing where it hands out none.
///
/// # Errors
///
/// As `read` refuses the input; `NoRoom` where the room is shorter than the payload.
pub fn copy_payload(input: &[u8], room: &mut [u8]) -> Result<(), Refusal> {
    let (input, room) = (lent(input), lent_mut(room));
    // SAFETY: each pointer is valid for the length behind it, and the two runs do not overlap.
    checked(unsafe { raw::oatcastle_rot_payload(input.0, input.1, room.0, room.1) })
}

/// Writes a message to the start of `out`, and hands it out; a room of `LONGEST_MESSAGE` is always enough.
///
/// # Errors
///
/// `PayloadTooLong` where the payload has more than `LONGEST_PAYLOAD` bytes, `NoRoom` where `out` is shorter than the message.
pub fn write<'o>(kind: Type, payload: &[u8], out: &'o mut [u8]) -> Result<&'o [u8], Refusal> {
    let mut answer = raw::RotWriteAnswer::default();
    let (payload, room) = (lent(payload), lent_mut(out));
    // SAFETY: each pointer is valid for the length behind it, and what is written overlaps nothing else.
    checked(unsafe { raw::oatcastle_rot_write(kind.number(), payload.0, payload.1, room.0, room.1, &mut answer) })?;
    Ok(first(out, answer.length))
}

/// The CRC of some bytes: polynomial 04c11db7, top bit first, start 0, complemented at the end.
///
/// ```
/// assert_eq!(oatcastle::rot::crc(&[1, 2, 1, 0, 9]), 0x29f9ec23);
/// ```
#[must_use]
pub fn crc(bytes: &[u8]) -> u32 {
    let mut answer = raw::RotCrcAnswer::default();
    let bytes = lent(bytes);
    // SAFETY: the pointer is valid for the length behind it, and the answer overlaps nothing else.
    done(unsafe { raw::oatcastle_rot_crc(bytes.0, bytes.1, &mut answer) });
    answer.crc as u32
}
