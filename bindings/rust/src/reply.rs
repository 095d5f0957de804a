//! Defines the replies of the supervisor, decoded into types, and what is wrong with data that are no reply.
//! Assumes the forms of `docs/WIRE.md`.

use crate::limits::{LONGEST_ALERT, LONGEST_BLOCK, LONGEST_ITEM_DATA, LONGEST_VALUE};
use crate::wire::set_result;
use crate::{AddressPlan, Bsu, Item, ItemResult, Message, NotFound, NotSet, OptionBit, Reason, ReplyCommand, StatusBit};
use core::fmt;
use core::num::NonZeroU8;

/// The result of an inventory reply that has no item.
const NO_SUCH_ITEM: u8 = 1;

/// A reply; what it borrows is a part of the data that it was decoded from.
///
/// ```
/// use oatcastle::{BadReply, NotFound, Reply, ReplyCommand};
///
/// const LOOKUP: u8 = ReplyCommand::KeyLookup.number();
/// let Ok(Reply::KeyLookup(Ok(value))) = Reply::decode(1, LOOKUP, b"\0pong") else { panic!("no value") };
/// assert_eq!((value.value, value.edition), (&b"pong"[..], None));
/// let Ok(Reply::KeyLookup(Ok(value))) = Reply::decode(2, LOOKUP, b"\0\x07\0\0\0list") else { panic!("no value") };
/// assert_eq!((value.value, value.edition), (&b"list"[..], Some(7)));
///
/// assert_eq!(Reply::decode(1, LOOKUP, &[2]), Ok(Reply::KeyLookup(Err(NotFound::NoValue))));
/// assert_eq!(Reply::decode(1, LOOKUP, &[2, 0]), Err(BadReply::Length));
/// assert_eq!(Reply::decode(1, LOOKUP, &[5]), Err(BadReply::Value));
/// assert_eq!(Reply::decode(1, 0x08, &[]), Err(BadReply::Command));
/// assert_eq!(Reply::decode(3, LOOKUP, &[2]), Err(BadReply::Version));
/// ```
#[derive(Clone, Copy, Debug, PartialEq, Eq)]
#[non_exhaustive]
#[must_use]
pub enum Reply<'r> {
    /// 0x01: to a panic, and to a start acknowledged.
    Acknowledged,
    /// 0x02: the request's frame failed.
    DecodeFailure(Reason),
    /// 0x03: the boot storage unit.
    Bsu(Bsu),
    /// 0x04: model, revision and serial.
    Identity(Identity<'r>),
    /// 0x05: the address plan.
    Mac(AddressPlan),
    /// 0x06: the status and the startup options.
    Status(Status),
    /// 0x07: the oldest alert, which no longer waits; `None` where none waited.
    Alert(Option<Alert<'r>>),
    /// 0x09: bytes of the image; none where the hash is another, or the offset is at the image's end or past it.
    ImageBlock(&'r [u8]),
    /// 0x0a: a key's value, or the lookup's result.
    KeyLookup(Result<Value<'r>, NotFound>),
    /// 0x0b: an inventory item; `None` where there is no such item.
    Inventory(Option<Item<'r>>),
    /// 0x0c: whether the value is stored.
    KeySet(Result<(), NotSet>),
}

/// Model, revision and serial.
#[derive(Clone, Copy, Debug, PartialEq, Eq)]
#[non_exhaustive]
#[must_use]
pub struct Identity<'r> {
    /// The model.
    pub model: &'r [u8; 11],
    /// The revision.
    pub revision: u32,
    /// The serial.
    pub serial: &'r [u8; 11],
}

/// The supervisor's status and startup options. Bits that this crate has no name for may be set.
#[derive(Clone, Copy, Debug, PartialEq, Eq)]
#[non_exhaustive]
#[must_use]
pub struct Status {
    /// The status.
    pub status: u64,
    /// The startup options.
    pub options: u64,
    /// How many bits of the status are set.
    pub set_bits: u32,
}

impl Status {
    /// Whether this bit of the status is set.
    #[must_use]
    pub const fn has(&self, bit: StatusBit) -> bool {
        self.status & bit.number() != 0
    }

    /// Whether this bit of the startup options is set.
    #[must_use]
    pub const fn has_option(&self, bit: OptionBit) -> bool {
        self.options & bit.number() != 0
    }
}

/// An alert.
#[derive(Clone, Copy, Debug, PartialEq, Eq)]
#[non_exhaustive]
#[must_use]
pub struct Alert<'r> {
    /// Its action.
    pub action: NonZeroU8,
    /// Its text: at most `LONGEST_ALERT` bytes.
    pub text: &'r [u8],
}

/// A key's value as a lookup on the wire gives it.
#[derive(Clone, Copy, Debug, PartialEq, Eq)]
#[non_exhaustive]
#[must_use]
pub struct Value<'r> {
    /// The key's edition, in version 2; `None` in version 1, whose replies have none.
    pub edition: Option<u32>,
    /// At most `LONGEST_VALUE` bytes.
    pub value: &'r [u8],
}

/// Why a message is no reply of the supervisor.
#[derive(Clone, Copy, Debug, PartialEq, Eq, Hash)]
#[non_exhaustive]
pub enum BadReply {
    /// The version is neither 1 nor 2.
    Version,
    /// The command is no reply's.
    Command,
    /// The data have a length that the command, or its result, does not allow.
    Length,
    /// A field has a value that the command does not allow.
    Value,
}

impl fmt::Display for BadReply {
    fn fmt(&self, out: &mut fmt::Formatter<'_>) -> fmt::Result {
        out.write_str(match self {
            BadReply::Version => "no reply: the version is neither 1 nor 2",
            BadReply::Command => "no reply: the command is no reply's",
            BadReply::Length => "no reply: the data have a length that the command, or its result, does not allow",
            BadReply::Value => "no reply: a field has a value that the command does not allow",
        })
    }
}

impl core::error::Error for BadReply {}

impl<'r> Reply<'r> {
    /// Reads the data of a reply with this version and command. `Message::reply` does the same for a message.
    ///
    /// # Errors
    ///
    /// Where it is no reply of the supervisor, why.
    pub fn decode(version: u32, command: u8, data: &'r [u8]) -> Result<Reply<'r>, BadReply> {
        if !matches!(version, 1 | 2) {
            return Err(BadReply::Version);
        }
        Ok(match ReplyCommand::from_number(command).ok_or(BadReply::Command)? {
            ReplyCommand::Acknowledged => exact::<0>(data).map(|_| Reply::Acknowledged)?,
            ReplyCommand::DecodeFailure => Reply::DecodeFailure(known(Reason::from_number(byte(data)?))?),
            ReplyCommand::Bsu => Reply::Bsu(known(Bsu::from_number(byte(data)?))?),
            ReplyCommand::Identity => Reply::Identity(identity(data)?),
            ReplyCommand::Mac => Reply::Mac(plan(data)?),
            ReplyCommand::Status => Reply::Status(status(data)?),
            ReplyCommand::Alert => Reply::Alert(alert(data)?),
            ReplyCommand::ImageBlock => Reply::ImageBlock(at_most(LONGEST_BLOCK, data)?),
            ReplyCommand::KeyLookup => Reply::KeyLookup(lookup(version, data)?),
            ReplyCommand::Inventory => Reply::Inventory(item(data)?),
            ReplyCommand::KeySet => Reply::KeySet(known(set_result(byte(data)?.into()))?),
        })
    }
}

impl<'r> Message<'r> {
    /// The message as a reply of the supervisor.
    ///
    /// # Errors
    ///
    /// As `Reply::decode`.
    pub fn reply(&self) -> Result<Reply<'r>, BadReply> {
        Reply::decode(self.version, self.command, self.data)
    }
}

// ---- Fields

/// The first bytes, and those behind them.
fn front<const N: usize>(data: &[u8]) -> Result<(&[u8; N], &[u8]), BadReply> {
    data.split_first_chunk().ok_or(BadReply::Length)
}

/// All bytes, which are so many.
fn exact<const N: usize>(data: &[u8]) -> Result<&[u8; N], BadReply> {
    data.try_into().map_err(|_| BadReply::Length)
}

/// The one byte.
fn byte(data: &[u8]) -> Result<u8, BadReply> {
    exact::<1>(data).map(|&[byte]| byte)
}

fn at_most(longest: usize, data: &[u8]) -> Result<&[u8], BadReply> {
    if data.len() <= longest {
        Ok(data)
    } else {
        Err(BadReply::Length)
    }
}

fn known<T>(field: Option<T>) -> Result<T, BadReply> {
    field.ok_or(BadReply::Value)
}

// ---- The data of one command each

fn identity(data: &[u8]) -> Result<Identity<'_>, BadReply> {
    let (model, rest) = front(data)?;
    let (&revision, rest) = front(rest)?;
    Ok(Identity { model, revision: u32::from_le_bytes(revision), serial: exact(rest)? })
}

fn plan(data: &[u8]) -> Result<AddressPlan, BadReply> {
    let (&base, rest) = front(data)?;
    let (&count, rest) = front(rest)?;
    Ok(AddressPlan { base, count: u16::from_le_bytes(count), stride: byte(rest)? })
}

fn status(data: &[u8]) -> Result<Status, BadReply> {
    let (&status, rest) = front(data)?;
    let (status, options) = (u64::from_le_bytes(status), u64::from_le_bytes(*exact(rest)?));
    Ok(Status { status, options, set_bits: status.count_ones() })
}

fn alert(data: &[u8]) -> Result<Option<Alert<'_>>, BadReply> {
    let (&[action], text) = front(data)?;
    match NonZeroU8::new(action) {
        Some(action) => Ok(Some(Alert { action, text: at_most(LONGEST_ALERT, text)? })),
        None => exact::<0>(text).map(|_| None),
    }
}

fn lookup(version: u32, data: &[u8]) -> Result<Result<Value<'_>, NotFound>, BadReply> {
    let (&[result], rest) = front(data)?;
    if result != 0 {
        let result = known(NotFound::from_number(result))?;
        return exact::<0>(rest).map(|_| Err(result));
    }
    let (edition, value) = if version == 1 {
        (None, rest)
    } else {
        let (&edition, value) = front(rest)?;
        (Some(u32::from_le_bytes(edition)), value)
    };
    Ok(Ok(Value { edition, value: at_most(LONGEST_VALUE, value)? }))
}

fn item(data: &[u8]) -> Result<Option<Item<'_>>, BadReply> {
    let (&[result], rest) = front(data)?;
    let (&name, rest) = front(rest)?;
    let (&[kind], data) = front(rest)?;
    if result == NO_SUCH_ITEM {
        let zero = name == [0; 32] && kind == 0;
        exact::<0>(data)?;
        return known(zero.then_some(None));
    }
    let result = known(ItemResult::from_number(result))?;
    let longest = if result == ItemResult::Found { LONGEST_ITEM_DATA } else { 0 };
    Ok(Some(Item { result, name, kind, data: at_most(longest, data)? }))
}
