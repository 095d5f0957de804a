//! Defines the main processor's end: one request outstanding, its answer, and recoveries.
//! Assumes the C functions of `raw`, and `docs/STATE.md` for where a reply's data lie.

use crate::limits::{
    ALERT, ANSWER, IDLE, LONGEST_DATA, NOTHING, RECOVERY_ACKNOWLEDGE, RECOVERY_ALERT, RECOVERY_STATUS, REQUESTER_LENGTH, STATUS, WAITING,
};
use crate::{checked, done, first, lent, lent_mut, raw, ruled_out, Message, ReaderStorage, Refusal, Request, Status};
use core::fmt;

/// Storage for one main processor's end: a reader's part, its own, and room to put a request's data together; it may be a `static`. The data of a request,
/// a passphrase too, stay there until others overwrite them: a start clears the two parts, and not that room.
pub struct RequesterStorage {
    pub(crate) reader: ReaderStorage,
    requester: [u8; REQUESTER_LENGTH],
    data: [u8; LONGEST_DATA],
}

impl RequesterStorage {
    /// Storage in which nothing has started.
    #[must_use]
    pub const fn new() -> RequesterStorage {
        RequesterStorage { reader: ReaderStorage::new(), requester: [0; REQUESTER_LENGTH], data: [0; LONGEST_DATA] }
    }
}

impl Default for RequesterStorage {
    fn default() -> RequesterStorage {
        RequesterStorage::new()
    }
}

impl fmt::Debug for RequesterStorage {
    fn fmt(&self, out: &mut fmt::Formatter<'_>) -> fmt::Result {
        out.debug_struct("RequesterStorage").finish_non_exhaustive()
    }
}

/// The main processor's end in storage that it is lent: it exists only started, and only its own calls write the storage.
///
/// ```
/// use oatcastle::requester::{Handed, Requester, RequesterStorage, State};
/// use oatcastle::{Bsu, Key, Reply, Request, StartData, Supervisor, SupervisorStorage, LONGEST_FRAME, MOST_PENDING};
///
/// let (mut near, mut far) = (RequesterStorage::new(), SupervisorStorage::new());
/// let mut main = Requester::start_in(&mut near);
/// let mut supervisor = Supervisor::start_in(&mut far, &StartData::new(Bsu::A));
///
/// let mut room = [0; LONGEST_FRAME];
/// supervisor.receive(&[], main.request(&Request::lookup(Key::Ping, 4), &mut room)?);
/// let mut room = [0; MOST_PENDING];
/// let (mut piece, mut found) = (supervisor.take(&mut room), None);
/// while !piece.is_empty() {
///     let received = main.receive(piece);                                 // up to a frame's end
///     piece = &piece[received.used..];
///     if let Handed::Answer(message) = received.handed {
///         if let Reply::KeyLookup(Ok(value)) = message.reply()? {
///             found = Some(value.value.to_vec());
///         }
///     }
/// }
/// assert_eq!(found, Some(b"pong".to_vec()));
/// assert_eq!(main.state(), State::Idle);
/// # Ok::<(), Box<dyn std::error::Error>>(())
/// ```
/// What a piece brought is not to be dropped; where warnings are errors, this does not compile:
/// ```compile_fail
/// #![deny(unused_must_use)]
/// # fn dropped(main: &mut oatcastle::requester::Requester<'_>) {
/// main.receive(&[1, 0]);
/// # }
/// ```
/// A reply is a part of the storage and is gone with the next call of `receive`; to hold both does not compile:
/// ```compile_fail,E0499
/// # fn two(requester: &mut oatcastle::requester::Requester<'_>) {
/// let first = requester.receive(&[1, 0]);
/// let second = requester.receive(&[1, 0]);
/// let _ = first.used;
/// # }
/// ```
pub struct Requester<'s> {
    pub(crate) storage: &'s mut RequesterStorage,
}

impl fmt::Debug for Requester<'_> {
    fn fmt(&self, out: &mut fmt::Formatter<'_>) -> fmt::Result {
        out.debug_struct("Requester").finish_non_exhaustive()
    }
}

/// What came of a piece.
#[derive(Clone, Copy, Debug, PartialEq, Eq)]
#[non_exhaustive]
#[must_use = "bytes past `used` go in with the next call, and what is handed out is gone with it"]
pub struct Received<'r> {
    /// How many bytes of the piece were read; the rest goes in with the next call.
    pub used: usize,
    /// What is handed out.
    pub handed: Handed<'r>,
    /// No number was left for a recovery's next step: it is over, and the request that was cut off is forgotten.
    pub ended: bool,
    /// A frame is to go out.
    pub unsent: bool,
}

/// What is handed out.
#[derive(Clone, Copy, Debug, PartialEq, Eq)]
#[non_exhaustive]
#[must_use]
pub enum Handed<'r> {
    /// Nothing.
    Nothing,
    /// The answer to the outstanding request, which is settled: a message of version 1 under the request's number with the top bit set, with any command but 0x02.
    Answer(Message<'r>),
    /// What a recovery's fetch read.
    Status(Status),
    /// The answer to a recovery's 0x0a, of which the same holds.
    Alert(Message<'r>),
}

/// What the main processor's end is doing.
#[derive(Clone, Copy, Debug, PartialEq, Eq)]
#[non_exhaustive]
#[must_use]
pub enum State {
    /// Nothing is outstanding: no request is refused as `Outstanding`.
    Idle,
    /// The caller's request is outstanding.
    Waiting(Outstanding),
    /// A recovery's status request, 0x08, is outstanding.
    RecoveryStatus(Outstanding),
    /// A recovery's start acknowledged, 0x09, is outstanding.
    RecoveryAcknowledge(Outstanding),
    /// A recovery's alert request, 0x0a, is outstanding.
    RecoveryAlert(Outstanding),
}

impl State {
    /// Whether a recovery is under way.
    #[must_use]
    pub const fn recovering(&self) -> bool {
        matches!(self, State::RecoveryStatus(_) | State::RecoveryAcknowledge(_) | State::RecoveryAlert(_))
    }
}

/// The request that is outstanding.
#[derive(Clone, Copy, Debug, PartialEq, Eq)]
#[non_exhaustive]
#[must_use]
pub struct Outstanding {
    /// Its command.
    pub command: u8,
    /// Its sequence.
    pub number: u64,
    /// Its frame is to go out by `send`.
    pub unsent: bool,
    /// In a recovery: a request that was cut off goes out anew behind it.
    pub original: bool,
}

impl<'s> Requester<'s> {
    /// Begins: no number used, nothing outstanding. Bytes still on their way from before must be thrown away first.
    #[must_use]
    pub fn start_in(storage: &'s mut RequesterStorage) -> Requester<'s> {
        let mut requester = Requester { storage };
        requester.restart();
        requester
    }

    /// Begins anew, under number 1. Bytes still on their way must be thrown away first, or a late reply may have a number in use. If a frame may have gone out
    /// in part, one 00 ahead of this ends it; its reply is thrown away too.
    pub fn restart(&mut self) {
        let (reader, requester) = (lent_mut(&mut self.storage.reader.state), lent_mut(&mut self.storage.requester));
        // SAFETY: each pointer is valid for the length behind it, and the two runs do not overlap.
        done(unsafe { raw::oatcastle_requester_start(reader.0, reader.1, requester.0, requester.1) });
    }

    /// Writes a request's frame under the next number to the start of `out` and hands it out; a room of `LONGEST_FRAME` is always enough.
    /// It stays outstanding until its answer comes, but for the commands 0x01, 0x02 and 0x06.
    ///
    /// # Errors
    ///
    /// `TooLong` where there are more than `LONGEST_DATA` bytes of data, `Outstanding` where a request is outstanding or a recovery under way,
    /// `NoNumber` where no number is left, `NoRoom` where `out` is shorter than the frame. A refused request takes no number.
    pub fn request<'o>(&mut self, request: &Request<'_>, out: &'o mut [u8]) -> Result<&'o [u8], Refusal> {
        let mut answer = raw::RequesterRequestAnswer::default();
        let RequesterStorage { requester, data, .. } = &mut *self.storage;
        let (requester, data, room) = (lent_mut(requester), lent(joined(request, data)?), lent_mut(out));
        // SAFETY: each pointer is valid for the length behind it, and what is written overlaps nothing else.
        checked(unsafe {
            raw::oatcastle_requester_request(requester.0, requester.1, request.command(), data.0, data.1, room.0, room.1, &mut answer)
        })?;
        Ok(first(out, answer.length))
    }

    /// Begins a recovery, unless one is under way.
    ///
    /// # Errors
    ///
    /// `NoNumber` where no number is left.
    pub fn interrupt(&mut self) -> Result<(), Refusal> {
        let requester = lent_mut(&mut self.storage.requester);
        // SAFETY: the pointer is valid for the length behind it.
        checked(unsafe { raw::oatcastle_requester_interrupt(requester.0, requester.1) })
    }

    /// Writes the outstanding frame to the start of `out` and hands it out; nothing unless it is to go out.
    ///
    /// # Errors
    ///
    /// `NoRoom` where `out` is shorter than the frame, which is still to go out then.
    pub fn send<'o>(&mut self, out: &'o mut [u8]) -> Result<&'o [u8], Refusal> {
        let mut answer = raw::RequesterSendAnswer::default();
        let (requester, room) = (lent_mut(&mut self.storage.requester), lent_mut(out));
        // SAFETY: each pointer is valid for the length behind it, and no two runs overlap.
        checked(unsafe { raw::oatcastle_requester_send(requester.0, requester.1, room.0, room.1, &mut answer) })?;
        Ok(first(out, answer.length))
    }

    /// Reads a piece up to its first 00, a frame's 4,141st byte, or its end.
    pub fn receive(&mut self, piece: &[u8]) -> Received<'_> {
        let mut answer = raw::RequesterReceiveAnswer::default();
        let (piece, reader) = (lent(piece), lent_mut(&mut self.storage.reader.state));
        let requester = lent_mut(&mut self.storage.requester);
        // SAFETY: each pointer is valid for the length behind it, and what is written overlaps nothing else.
        done(unsafe { raw::oatcastle_requester_receive(piece.0, piece.1, reader.0, reader.1, requester.0, requester.1, &mut answer) });
        let message = || Message {
            version: 1,
            sequence: answer.sequence,
            command: answer.command as u8,
            data: self.storage.reader.message_data(answer.length),
        };
        let handed = match answer.kind {
            NOTHING => Handed::Nothing,
            ANSWER => Handed::Answer(message()),
            STATUS => Handed::Status(Status { status: answer.status, options: answer.options, set_bits: answer.set_bits as u32 }),
            ALERT => Handed::Alert(message()),
            _ => ruled_out(),
        };
        Received { used: answer.used as usize, handed, ended: answer.ended == 1, unsent: answer.unsent == 1 }
    }

    /// What is outstanding.
    pub fn state(&self) -> State {
        let mut answer = raw::RequesterStateAnswer::default();
        let requester = lent(&self.storage.requester);
        // SAFETY: the pointer is valid for the length behind it, and the answer overlaps nothing else.
        done(unsafe { raw::oatcastle_requester_state(requester.0, requester.1, &mut answer) });
        let outstanding = Outstanding {
            command: answer.command as u8,
            number: answer.number,
            unsent: answer.unsent == 1,
            original: answer.original == 1,
        };
        match answer.state {
            IDLE => State::Idle,
            WAITING => State::Waiting(outstanding),
            RECOVERY_STATUS => State::RecoveryStatus(outstanding),
            RECOVERY_ACKNOWLEDGE => State::RecoveryAcknowledge(outstanding),
            RECOVERY_ALERT => State::RecoveryAlert(outstanding),
            _ => ruled_out(),
        }
    }
}

/// A request's data in one run: its rest or its head where the other is empty, else both, put together in the room.
fn joined<'r>(request: &'r Request<'_>, room: &'r mut [u8; LONGEST_DATA]) -> Result<&'r [u8], Refusal> {
    let (head, rest) = (request.head(), request.rest());
    if head.is_empty() || rest.is_empty() {
        return Ok(if head.is_empty() { rest } else { head });
    }
    let data = room.get_mut(..head.len() + rest.len()).ok_or(Refusal::TooLong)?;
    let (front, back) = data.split_at_mut(head.len());
    front.copy_from_slice(head);
    back.copy_from_slice(rest);
    Ok(data)
}
