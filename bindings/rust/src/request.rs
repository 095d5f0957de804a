//! Defines the requests of the main processor: one constructor for each command, and one for any command and data.
//! Assumes the forms of `docs/WIRE.md`.

use crate::{write_frame, Command, Key, NotSet, Refusal};
use core::fmt;

/// The most bytes of data ahead of a request's rest: an image block's hash and offset.
const LONGEST_HEAD: usize = 40;

/// A request: its command and its data, the fields of a known width and behind them a rest, which is borrowed.
///
/// ```
/// use oatcastle::{Command, Key, NotSet, Request};
///
/// const LIST: Request = Request::lookup(Key::WithdrawnKeys, 4096);
/// assert_eq!((LIST.command(), LIST.head(), LIST.rest()), (Command::KeyLookup.number(), &[5, 0, 16][..], &[][..]));
///
/// let set = Request::key_set(Key::EtcSystem, b"value")?;
/// assert_eq!((set.command(), set.head(), set.rest()), (Command::KeySet.number(), &[3][..], &b"value"[..]));
/// assert_eq!(Request::key_set(Key::Passphrase, b"short"), Err(NotSet::TooLong));
/// # Ok::<(), NotSet>(())
/// ```
/// A key that the supervisor does not have is no `Key`; this does not compile:
/// ```compile_fail,E0308
/// oatcastle::Request::lookup(7, 4096);
/// ```
#[derive(Clone, Copy, PartialEq, Eq)]
#[must_use]
pub struct Request<'d> {
    command: u8,
    head: [u8; LONGEST_HEAD],
    head_length: usize,
    rest: &'d [u8],
}

/// Shows the data by their lengths alone: they may be a passphrase.
impl fmt::Debug for Request<'_> {
    fn fmt(&self, out: &mut fmt::Formatter<'_>) -> fmt::Result {
        let length = self.head_length + self.rest.len();
        out.debug_struct("Request").field("command", &self.command).field("length", &length).finish_non_exhaustive()
    }
}

impl<'d> Request<'d> {
    const fn of(command: Command) -> Request<'d> {
        Request::raw(command.number(), &[])
    }

    /// With these bytes behind those of its head.
    const fn with(mut self, bytes: &[u8]) -> Request<'d> {
        let mut index = 0;
        while index < bytes.len() {
            self.head[self.head_length] = bytes[index];
            self.head_length += 1;
            index += 1;
        }
        self
    }

    const fn behind(mut self, rest: &'d [u8]) -> Request<'d> {
        self.rest = rest;
        self
    }

    /// Any command with any data, as tests and tools want.
    pub const fn raw(command: u8, data: &'d [u8]) -> Request<'d> {
        Request { command, head: [0; LONGEST_HEAD], head_length: 0, rest: data }
    }

    /// 0x01: asks for a reboot. It gets no reply.
    pub const fn reboot() -> Request<'d> {
        Request::of(Command::Reboot)
    }

    /// 0x02: asks for power off. It gets no reply.
    pub const fn power_off() -> Request<'d> {
        Request::of(Command::PowerOff)
    }

    /// 0x03: asks for the boot storage unit.
    pub const fn bsu() -> Request<'d> {
        Request::of(Command::Bsu)
    }

    /// 0x04: asks for model, revision and serial.
    pub const fn identity() -> Request<'d> {
        Request::of(Command::Identity)
    }

    /// 0x05: asks for the address plan.
    pub const fn mac() -> Request<'d> {
        Request::of(Command::Mac)
    }

    /// 0x06: tells a boot failure; the rest has at most 4,103 bytes. It gets no reply. Reasons with a meaning: 1 general, 2 no image found,
    /// 3 image header, 4 integrity, 5 ramdisk.
    pub const fn boot_failure(reason: u8, rest: &'d [u8]) -> Request<'d> {
        Request::of(Command::BootFailure).with(&[reason]).behind(rest)
    }

    /// 0x07: tells a panic; the rest has at most 4,102 bytes. Causes with a meaning: 0xca11 called, 0xa9nn trap nn, 0x5enn fatal user trap nn,
    /// 0xeb00 early, 0xeb97 early PROM, 0xeba9 early trap.
    pub const fn panic(cause: u16, rest: &'d [u8]) -> Request<'d> {
        Request::of(Command::Panic).with(&cause.to_le_bytes()).behind(rest)
    }

    /// 0x08: asks for the status and the startup options.
    pub const fn status() -> Request<'d> {
        Request::of(Command::Status)
    }

    /// 0x09: acknowledges the supervisor's start.
    pub const fn start_acknowledged() -> Request<'d> {
        Request::of(Command::StartAcknowledged)
    }

    /// 0x0a: takes the oldest alert.
    pub const fn alert() -> Request<'d> {
        Request::of(Command::Alert)
    }

    /// 0x0d: asks for the bytes of the image with this hash, from the offset on.
    pub const fn image_block(hash: &[u8; 32], offset: u64) -> Request<'d> {
        Request::of(Command::ImageBlock).with(hash).with(&offset.to_le_bytes())
    }

    /// 0x0e: asks for a key's value, where it has at most `maxresponse` bytes.
    pub const fn lookup(key: Key, maxresponse: u16) -> Request<'d> {
        Request::of(Command::KeyLookup).with(&[key.number()]).with(&maxresponse.to_le_bytes())
    }

    /// 0x0f: asks for an inventory item.
    pub const fn inventory(index: u32) -> Request<'d> {
        Request::of(Command::Inventory).with(&index.to_le_bytes())
    }

    /// 0x10: sets a key.
    ///
    /// # Errors
    ///
    /// The result that the supervisor would send: `ReadOnly` where the key cannot be set, `TooLong` where the value has a length that the key does not allow.
    pub const fn key_set(key: Key, value: &'d [u8]) -> Result<Request<'d>, NotSet> {
        let Some(lengths) = key.set_lengths() else { return Err(NotSet::ReadOnly) };
        if value.len() < *lengths.start() || value.len() > *lengths.end() {
            return Err(NotSet::TooLong);
        }
        Ok(Request::of(Command::KeySet).with(&[key.number()]).behind(value))
    }

    /// Its command.
    #[must_use]
    pub const fn command(&self) -> u8 {
        self.command
    }

    /// The first bytes of its data: the fields of a known width.
    #[must_use]
    pub const fn head(&self) -> &[u8] {
        self.head.split_at(self.head_length).0
    }

    /// The bytes of its data behind the head.
    #[must_use]
    pub const fn rest(&self) -> &'d [u8] {
        self.rest
    }

    /// Writes its frame under a version and a number to the start of `out` and hands it out, as `write_frame` does; `Requester::request` numbers
    /// requests itself, in version 1.
    ///
    /// # Errors
    ///
    /// `TooLong` where the data have more than `LONGEST_DATA` bytes, `NoRoom` where `out` is shorter than the frame.
    pub fn write_frame<'o>(&self, version: u32, sequence: u64, out: &'o mut [u8]) -> Result<&'o [u8], Refusal> {
        write_frame(version, sequence, self.command, self.head(), self.rest, out)
    }
}
