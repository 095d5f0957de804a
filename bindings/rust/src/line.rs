//! Defines the line layer's reader and writer.
//! Assumes the C functions of `raw`, and `docs/STATE.md` for where a message's data lie.

use crate::limits::{EMPTY, FAILURE, MESSAGE, MESSAGE_DATA_OFFSET, MORE, READER_LENGTH};
use crate::{checked, done, first, lent, lent_mut, part, raw, ruled_out, Reason, Refusal};
use core::fmt;

/// Storage for one line reader, which may be a `static`.
pub struct ReaderStorage {
    pub(crate) state: [u8; READER_LENGTH],
}

impl ReaderStorage {
    /// Storage in which nothing has started.
    #[must_use]
    pub const fn new() -> ReaderStorage {
        ReaderStorage { state: [0; READER_LENGTH] }
    }

    /// The data of the message that a read has just handed out, as they lie in the reader's part.
    pub(crate) fn message_data(&self, length: u64) -> &[u8] {
        part(&self.state, MESSAGE_DATA_OFFSET, length as usize)
    }
}

impl Default for ReaderStorage {
    fn default() -> ReaderStorage {
        ReaderStorage::new()
    }
}

impl fmt::Debug for ReaderStorage {
    fn fmt(&self, out: &mut fmt::Formatter<'_>) -> fmt::Result {
        out.debug_struct("ReaderStorage").finish_non_exhaustive()
    }
}

/// A line reader in storage that it is lent: it exists only started, and only its own calls write the storage.
///
/// ```
/// use oatcastle::{write_frame, LineReader, ReadEnd, ReaderStorage, LONGEST_FRAME};
///
/// let mut room = [0; LONGEST_FRAME];
/// let frame = write_frame(1, 9, 0x55, b"da", b"ta", &mut room)?;
///
/// let mut storage = ReaderStorage::new();
/// let mut reader = LineReader::start_in(&mut storage);
/// assert_eq!(reader.read(&frame[..5]).end, ReadEnd::More);
/// let ReadEnd::Message(message) = reader.read(&frame[5..]).end else { panic!("no message") };
/// assert_eq!((message.version, message.sequence, message.command, message.data), (1, 9, 0x55, &b"data"[..]));
/// # Ok::<(), oatcastle::Refusal>(())
/// ```
/// A message is a part of the storage and is gone with the next read; to hold both does not compile:
/// ```compile_fail,E0499
/// # fn two(reader: &mut oatcastle::LineReader<'_>) {
/// let first = reader.read(&[1, 0]);
/// let second = reader.read(&[1, 0]);
/// let _ = first.used;
/// # }
/// ```
/// Nor does a use of the storage while its reader lives:
/// ```compile_fail,E0499
/// let mut storage = oatcastle::ReaderStorage::new();
/// let mut reader = oatcastle::LineReader::start_in(&mut storage);
/// let other = oatcastle::LineReader::start_in(&mut storage);
/// reader.read(&[]);
/// ```
pub struct LineReader<'s> {
    storage: &'s mut ReaderStorage,
}

impl fmt::Debug for LineReader<'_> {
    fn fmt(&self, out: &mut fmt::Formatter<'_>) -> fmt::Result {
        out.debug_struct("LineReader").field("tail", &self.tail()).finish_non_exhaustive()
    }
}

/// How far a read came.
#[derive(Clone, Copy, Debug, PartialEq, Eq)]
#[non_exhaustive]
#[must_use = "bytes past `used` go in with the next call"]
pub struct Read<'r> {
    /// How many bytes of the piece were read; the rest goes in with the next read.
    pub used: usize,
    /// What the last of them ended.
    pub end: ReadEnd<'r>,
}

/// What ended a read.
#[derive(Clone, Copy, Debug, PartialEq, Eq)]
#[non_exhaustive]
#[must_use]
pub enum ReadEnd<'r> {
    /// The frame is not finished.
    More,
    /// An empty frame.
    Empty,
    /// A frame that reads as a message.
    Message(Message<'r>),
    /// A frame that fails.
    Failure(Failure),
}

/// A frame that failed.
#[derive(Clone, Copy, Debug, PartialEq, Eq)]
#[non_exhaustive]
#[must_use]
pub struct Failure {
    /// Why, by the line layer's tests: 1 to 4.
    pub reason: Reason,
    /// The request's sequence, where the reason lets it be known.
    pub sequence: Option<u64>,
}

/// A message; its data are a part of the reader's storage.
#[derive(Clone, Copy, Debug, PartialEq, Eq)]
#[non_exhaustive]
#[must_use]
pub struct Message<'r> {
    /// Any version.
    pub version: u32,
    /// Any sequence.
    pub sequence: u64,
    /// Any command.
    pub command: u8,
    /// At most `LONGEST_DATA` bytes.
    pub data: &'r [u8],
}

/// The bytes of an unfinished frame.
#[derive(Clone, Copy, Debug, PartialEq, Eq)]
#[non_exhaustive]
#[must_use]
pub enum Tail {
    /// So many have come.
    Bytes(usize),
    /// More have come than a frame has ahead of its 00.
    TooLong,
}

impl<'s> LineReader<'s> {
    /// Begins a fresh reader; what the storage held before means nothing to it.
    #[must_use]
    pub fn start_in(storage: &'s mut ReaderStorage) -> LineReader<'s> {
        let mut reader = LineReader { storage };
        reader.restart();
        reader
    }

    /// Begins anew; what has come of a frame is dropped.
    pub fn restart(&mut self) {
        let state = lent_mut(&mut self.storage.state);
        // SAFETY: the pointer is valid for the length behind it.
        done(unsafe { raw::oatcastle_line_start(state.0, state.1) });
    }

    /// Reads the piece up to its end or its first 00.
    pub fn read(&mut self, piece: &[u8]) -> Read<'_> {
        let mut answer = raw::LineReadAnswer::default();
        let (state, piece) = (lent_mut(&mut self.storage.state), lent(piece));
        // SAFETY: each pointer is valid for the length behind it, and what is written overlaps nothing else.
        done(unsafe { raw::oatcastle_line_read(state.0, state.1, piece.0, piece.1, &mut answer) });
        let end = match answer.kind {
            MORE => ReadEnd::More,
            EMPTY => ReadEnd::Empty,
            MESSAGE => ReadEnd::Message(Message {
                version: answer.version as u32,
                sequence: answer.sequence,
                command: answer.command as u8,
                data: self.storage.message_data(answer.length),
            }),
            FAILURE => ReadEnd::Failure(failure(answer.reason, answer.sequence)),
            _ => ruled_out(),
        };
        Read { used: answer.used as usize, end }
    }

    /// What has come of a frame since the last 00.
    pub fn tail(&self) -> Tail {
        let mut answer = raw::LineTailAnswer::default();
        let state = lent(&self.storage.state);
        // SAFETY: the pointer is valid for the length behind it, and the answer overlaps nothing else.
        done(unsafe { raw::oatcastle_line_tail(state.0, state.1, &mut answer) });
        if answer.longer == 0 {
            Tail::Bytes(answer.length as usize)
        } else {
            Tail::TooLong
        }
    }
}

fn failure(reason: u64, sequence: u64) -> Failure {
    let reason = Reason::of(reason).unwrap_or_else(|| ruled_out());
    let known = matches!(reason, Reason::Checksum | Reason::Magic);
    Failure { reason, sequence: known.then_some(sequence) }
}

/// Writes the frame of a message with the data `head` then `rest` to the start of `out` and hands it out; bytes of `out` past it stay. A room of
/// `LONGEST_FRAME` is enough for every message.
///
/// # Errors
///
/// `TooLong` where the data have more than `LONGEST_DATA` bytes, `NoRoom` where `out` is shorter than the frame.
/// ```
/// use oatcastle::{write_frame, Refusal, LONGEST_FRAME};
///
/// let mut room = [0xee; LONGEST_FRAME];
/// let frame = write_frame(1, 1, 8, &[], &[], &mut room)?;
/// assert_eq!(frame, [6, 0xcc, 0x19, 0xde, 1, 1, 1, 1, 2, 1, 1, 1, 1, 1, 1, 1, 4, 8, 0xcf, 0x66, 0]);
/// assert_eq!(write_frame(1, 1, 8, &[], &[], &mut room[..20]), Err(Refusal::NoRoom));
/// # Ok::<(), Refusal>(())
/// ```
pub fn write_frame<'o>(version: u32, sequence: u64, command: u8, head: &[u8], rest: &[u8], out: &'o mut [u8]) -> Result<&'o [u8], Refusal> {
    let mut answer = raw::LineWriteAnswer::default();
    let (head, rest, room) = (lent(head), lent(rest), lent_mut(out));
    // SAFETY: each pointer is valid for the length behind it, and what is written overlaps nothing else.
    checked(unsafe { raw::oatcastle_line_write(version, sequence, command, head.0, head.1, rest.0, rest.1, room.0, room.1, &mut answer) })?;
    Ok(first(out, answer.length))
}

/// The checksum of a message's body.
///
/// ```
/// assert_eq!(oatcastle::checksum(b"abcde"), 0xc8f0);
/// ```
#[must_use]
pub fn checksum(body: &[u8]) -> u16 {
    let mut answer = raw::LineChecksumAnswer::default();
    let body = lent(body);
    // SAFETY: the pointer is valid for the length behind it, and the answer overlaps nothing else.
    done(unsafe { raw::oatcastle_line_checksum(body.0, body.1, &mut answer) });
    answer.checksum as u16
}
